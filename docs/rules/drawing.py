"""A small picture as SVG: axes, the range L to H, losses and margins as lines. Legible on light and dark pages."""
WIDTH, HEIGHT = 600, 340
LEFT, RIGHT, TOP, BOTTOM = 64, 580, 84, 262  # of the plot
FIRST_PRICE, LAST_PRICE = 2200, 3800
STYLE = '''
  text { font: 12px sans-serif; fill: #1f2328; }
  .paper { fill: #ffffff; } .range { fill: #e3ecf5; } .axis { stroke: #57606a; fill: none; }
  .mark { stroke: #8c959f; stroke-dasharray: 2 3; } .beyond { stroke-dasharray: 2 4; opacity: 0.7; }
  .loss { stroke: #0550ae; } .other { stroke: #6639ba; stroke-dasharray: 8 3; } .margin { stroke: #bc4c00; }
  .loss, .other, .margin { stroke-width: 2.5; fill: none; } .open { fill: #ffffff; stroke-dasharray: none; }
  @media (prefers-color-scheme: dark) {
    text { fill: #e6edf3; } .paper { fill: #0d1117; } .range { fill: #1c2b3d; } .axis { stroke: #9198a1; }
    .mark { stroke: #6e7681; } .loss { stroke: #6cb6ff; } .other { stroke: #c297ff; } .margin { stroke: #ffa657; }
    .open { fill: #0d1117; }
  }
'''


class Drawing:
    """Elements in the order in which they are drawn; prices run to the right, ticks of loss upward."""

    def __init__(self, title, most):
        """A picture whose highest loss is `most` ticks."""
        self.most = most
        self.elements = [f'<title>{title}</title>', f'<style>{STYLE}</style>',
                         f'<rect class="paper" width="{WIDTH}" height="{HEIGHT}"/>']
        self.text(12, 20, title)
        self.legend_at = 12

    def x(self, price):
        """Where a price stands."""
        return LEFT + (RIGHT - LEFT) * (price - FIRST_PRICE) / (LAST_PRICE - FIRST_PRICE)

    def y(self, ticks):
        """Where a loss stands."""
        return BOTTOM - (BOTTOM - TOP) * ticks / self.most

    def text(self, x, y, words, more=''):
        """Words at a place."""
        self.elements.append(f'<text x="{x:.1f}" y="{y:.1f}" {more}>{words}</text>'.replace(' >', '>'))

    def segment(self, kind, x1, y1, x2, y2):
        """A straight line between two places."""
        self.elements.append(f'<line class="{kind}" x1="{x1:.1f}" y1="{y1:.1f}" x2="{x2:.1f}" y2="{y2:.1f}"/>')

    def range(self, low, high):
        """The shaded prices from L to H."""
        left, right = self.x(low), self.x(high)
        self.elements.append(f'<rect class="range" x="{left:.1f}" y="{TOP}" width="{right - left:.1f}" '
                             f'height="{BOTTOM - TOP}"/>')
        self.text(left, TOP - 6, f'L {low}', 'text-anchor="middle"')
        self.text(right, TOP - 6, f'H {high}', 'text-anchor="middle"')

    def axes(self, step):
        """Both axes with their numbers and units."""
        self.elements.append(f'<path class="axis" d="M{LEFT} {TOP}V{BOTTOM}H{RIGHT}"/>')
        for price in range(FIRST_PRICE, LAST_PRICE + 1, 200):
            self.segment('axis', self.x(price), BOTTOM, self.x(price), BOTTOM + 4)
            self.text(self.x(price), BOTTOM + 17, price, 'text-anchor="middle"')
        for ticks in range(0, self.most + 1, step):
            self.segment('axis', LEFT - 4, self.y(ticks), LEFT, self.y(ticks))
            self.text(LEFT - 8, self.y(ticks) + 4, ticks, 'text-anchor="end"')
        self.text((LEFT + RIGHT) / 2, HEIGHT - 8, 'price at expiry, ticks', 'text-anchor="middle"')
        middle = (TOP + BOTTOM) / 2
        self.text(16, middle, "writer's loss, ticks", f'text-anchor="middle" transform="rotate(-90 16 {middle:.1f})"')

    def mark(self, name, price, depth):
        """A strike, limiter or barrier; depth 0 or 1 is the row of its name below the axis."""
        self.segment('mark', self.x(price), TOP, self.x(price), BOTTOM)
        self.text(self.x(price), BOTTOM + 33 + 15 * depth, f'{name} {price}', 'text-anchor="middle"')

    def curve(self, kind, points):
        """A line through points of price and loss."""
        places = ' '.join(f'{self.x(price):.1f},{self.y(loss):.1f}' for price, loss in points)
        self.elements.append(f'<polyline class="{kind}" points="{places}"/>')

    def open_end(self, kind, price, loss):
        """A point that belongs to no path: the barrier is touched there."""
        self.elements.append(f'<circle class="{kind} open" cx="{self.x(price):.1f}" cy="{self.y(loss):.1f}" r="4"/>')

    def level(self, ticks):
        """A margin, across the plot."""
        self.segment('margin', LEFT, self.y(ticks), RIGHT, self.y(ticks))

    def legend(self, kind, words):
        """A sample of a line and what it is, in the row below the title."""
        self.segment(kind, self.legend_at, 42, self.legend_at + 30, 42)
        self.text(self.legend_at + 36, 46, words)
        self.legend_at += 36 + 6.4 * len(words) + 22

    def svg(self):
        """The picture's text."""
        body = '\n'.join(self.elements)
        return (f'<svg xmlns="http://www.w3.org/2000/svg" viewBox="0 0 {WIDTH} {HEIGHT}" width="{WIDTH}" '
                f'height="{HEIGHT}" role="img">\n{body}\n</svg>\n')
