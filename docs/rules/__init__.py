"""What docs/make_rules.py makes docs/RULES.md of: the prose (page.md), the hand arithmetic, the pictures."""
