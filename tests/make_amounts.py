#!/usr/bin/env python3
"""Writes the accounts that `position_amounts` is run on, and what it must write.

Each case is an account file and the answer that document 01 gives it, for flag 16 with document 02 [5], for the rounding
with document 02 [6] and for blocked contracts with document 02 [9], stated by hand beside it: the amounts of its rows, or
the reading's refusal. Many amounts are those of document 01, Checked values, starred or not: a unit margin in ticks times M 5
and Q 10, which is a multiple of 100 centavos, or times M 1 and Q 1, rounded up to one. Run it from anywhere; `git status`
shows no difference where nothing changed.
"""
from accounts import CALL, EXAMPLE, PUT, account, last, one, position, series, write

from account_batch import framed
from serpentgleam.layout import POSITION, SERIES, pack

CHECKED_CALLS = [
    (dict(), 500),
    (dict(flags=6, pb=3300), 200),
    (dict(kind=1, price=3700, reb=40), 150),
    (dict(kind=1, price=3600, reb=40), 500),
    (dict(kind=2, price=2300), 150),
    (dict(kind=2, price=2400, pe=2500), 380),
    (dict(kind=4, price=2300, reb=600), 500),
    (dict(kind=4, price=2400, reb=600), 600),
    (dict(kind=3, price=3601), 500),
    (dict(kind=3, price=3500, reb=40), 400),
    # already knocked in: no barrier, no rebate
    (dict(kind=1, flags=5, price=3700, reb=600), 500),
    (dict(kind=2, flags=5, price=2300, reb=600), 500),
]
CHECKED_PUTS = [
    (dict(pe=3200, kind=1, price=3600), 320),
    (dict(pe=2900, kind=4, price=2500), 400),
]
# What they come to with M 1 and Q 1.
CALLS_IN_REAIS = [500, 200, 200, 500, 200, 400, 500, 600, 500, 400, 500, 500]
PUTS_IN_REAIS = [400, 400]


def rows(checked, q=10):
    return [position(q=q, **fields) for fields, _ in checked]


def amounts(checked):
    return [ticks * 50 for _, ticks in checked]


def no_minimum(m=1, **fields):
    """A series with H 3600 and L 2400 unless other numbers are given, and no minimum margin."""
    return series(f3=0, m=m, **fields)


def strikes(*prices):
    """A written contract at each strike."""
    return [position(q=1, pe=pe) for pe in prices]


ROWS_ON_THE_COVER = pack(SERIES, series()) + pack(POSITION, position(kind=9))
LARGEST = account([series(10_000_000, 10_000_000, 0, 0, 1000)], [position(q=100_000, pe=1)])
KNOCKED_OUT_CALLS = account(CALL, [position(kind=3, flags=20, price=3500, reb=40),
                                   position(kind=4, flags=20, price=2500, reb=150),
                                   position(kind=3, flags=20, price=2999),
                                   position(kind=4, flags=20, price=3000, reb=600),
                                   position(side=0, kind=3, flags=20, price=3500, reb=40, premium=20)])
KNOCKED_OUT_PUTS = account(PUT, [position(kind=3, flags=20, price=3500, reb=40),
                                 position(kind=4, flags=16, price=10_000_000, reb=10_000_000)])
NO_POSITIONS = account(CALL + PUT, [], cover=b'all positions have expired\n')
LIMITERS = account(CALL, [position(flags=6, pb=3400), position(side=0, flags=6, q=4, pe=3110, pb=3300),
                          position(side=0, flags=6, q=3, pe=3150, pb=3400), position(side=0, q=2, pe=3200),
                          position(q=1, pe=3000)], cover=b'limiters inside a spread\n')

ACCEPTED = [
    (account(CALL, rows(CHECKED_CALLS)), amounts(CHECKED_CALLS)),
    (account(PUT, rows(CHECKED_PUTS)), amounts(CHECKED_PUTS)),
    # 604.935567 ticks a contract: 30246.77835 centavos
    (account([series(pv=3001, fa=1_234_567)], [position()]), [30_300]),
    (EXAMPLE, [25_000, 0, 300]),
    # the largest payoff, M and Q: the product before the division is near 10^22
    (LARGEST, [9_999_999_900_000_000]),
    # flag 16: the unit margin is REB, without MM, whichever side of PV the barrier is on; a held row's amount is its premium
    (KNOCKED_OUT_CALLS, [2_000, 7_500, 0, 30_000, 1_000]),
    # the same of puts; the highest barrier price and REB, and no flag beside 16
    (KNOCKED_OUT_PUTS, [2_000, 500_000_000]),
    # one fine unit is rounded up once, not once a contract
    (account([series(1, 1_000_001, 0, 0, 1)], [position(q=100, pe=1)]), [100]),
    (account(CALL, [position()] * 256), [25_000] * 256),
    # cover sheets, the largest counts and the longest file
    (account(CALL, [position()], cover=ROWS_ON_THE_COVER), [25_000]),
    (account([series()] * 32, [position(series=31)] * 256), [25_000] * 256),
    (account([series()] * 32, [position(series=i % 32) for i in range(256)], cover=b'\xff' * 56_564), [25_000] * 256),
    # no positions, of one series and of 32, without a cover sheet and with one: no amounts
    (account(CALL, []), []),
    (account([series()] * 32, []), []),
    (account(CALL, [], cover=ROWS_ON_THE_COVER), []),
    (account([series()] * 32, [], cover=ROWS_ON_THE_COVER), []),
    (NO_POSITIONS, []),
    # numbers at the ends of their ranges
    (account([series(10_000_000, 10_000_000, 10_000_000, 1_000_000, 1000)], [position(q=100_000, pe=10_000_000)]), [9_000_000_000_000_000]),
    (account([series(1, 1_000_000, 0, 0, 1)], [position(q=1, pe=1)]), [0]),
    (account(PUT, [position(flags=6, pe=1, pb=0)]), [7_500]),
    (account(CALL, [position(flags=6, pe=9_999_999, pb=10_000_000)]), [7_500]),
    (one(kind=1, flags=5, price=1), [25_000]),
    (one(kind=2, flags=15, price=10_000_000, pb=3101), [7_500]),
    (one(kind=3, price=3001, reb=10_000_000), [500_000_000]),
    (one(kind=4, price=2999), [25_000]),
    (one(side=0, premium=10_000_000), [500_000_000]),
]

# Rounded up to a multiple of 100 centavos (document 02 [6])
IN_REAIS = [
    (account([series(m=1)], rows(CHECKED_CALLS, q=1)), CALLS_IN_REAIS),
    (account([series(m=1, option=1)], rows(CHECKED_PUTS, q=1)), PUTS_IN_REAIS),
    # 0, 1, 99, 100, 101, 199, 200 and 201 ticks of one centavo
    (account([no_minimum()], strikes(3600, 3599, 3501, 3500, 3499, 3401, 3400, 3399)),
     [0, 100, 100, 100, 200, 200, 200, 300]),
    (account([no_minimum(option=1)], strikes(2400, 2401, 2499, 2500, 2501, 2599, 2600, 2601)),
     [0, 100, 100, 100, 200, 200, 200, 300]),
    # MM 5,882,353 x 17 = 100,000,001 fine units, one more than 100 ticks; 9,090,909 x 11 = 99,999,999, one less; 100 ticks
    (account([series(5_882_353, 1_000_000, 0, 17, 1)], strikes(10_000_000)), [200]),
    (account([series(9_090_909, 1_000_000, 0, 11, 1)], strikes(10_000_000)), [100]),
    (account([series(100, 1_000_000, 0, 1_000_000, 1)], strikes(10_000_000)), [100]),
    # a row of one tick, M 3 and 5: 99, 102, 100 and 105 centavos
    (account([no_minimum(3), no_minimum(5)], [position(q=33, pe=3599), position(q=34, pe=3599),
                                              position(series=1, q=20, pe=3599), position(series=1, q=21, pe=3599)]),
     [100, 200, 100, 200]),
    # premiums stay: 7 x 5 x 3, and of one contract 1, 20 and 99 ticks of 5 centavos
    (account(CALL, [position(side=0, q=3, premium=7), position(side=0, q=1, premium=1), position(side=0, q=1, premium=20),
                    position(side=0, q=1, premium=99)]), [105, 5, 100, 495]),
    # M 1: 1, 99, 100 and 101 centavos, and one row written between them, of 500 ticks
    (account([no_minimum()], [position(side=0, q=1, premium=1), position(side=0, q=1, premium=99), position(q=1),
                              position(side=0, q=1, premium=100), position(side=0, q=1, premium=101)]),
     [1, 99, 500, 100, 101]),
    # flag 16, a contract: 5, 95, 100 and 105 centavos, and a premium of 5
    (account(CALL, [position(kind=3, flags=20, price=3500, q=1, reb=1), position(kind=4, flags=20, price=2500, q=1, reb=19),
                    position(kind=3, flags=20, price=3500, q=1, reb=20), position(kind=4, flags=20, price=2500, q=1, reb=21),
                    position(side=0, kind=3, flags=20, price=3500, q=1, reb=1, premium=1)]), [100, 100, 100, 200, 5]),
    # the rows of a pair by themselves: 2 ticks and 2 contracts are 4 centavos; a held row without premium is nothing
    (account([no_minimum(pv=10)], [position(q=2, pe=10), position(side=0, q=1, pe=11)]), [100, 0]),
    (account([no_minimum(pv=10, option=1)], [position(q=2, pe=10), position(side=0, q=1, pe=9)]), [100, 0]),
    # 256 rows of one centavo, and of 100
    (account([no_minimum()], strikes(3599) * 256), [100] * 256),
    (account([no_minimum(100)], strikes(3599) * 256), [100] * 256),
    # 99,999,979,000,001 fine units x 1,000 x 99,999: 9,999,897,900,021,099.999 centavos
    (account([series(9_999_999, 9_999_999, 0, 0, 1000)], [position(q=99_999, pe=1)]), [9_999_897_900_021_100]),
    # 100,000 contracts of one fine unit and M 1,000 are 100 centavos, of M 999 less, and those of two are more
    (account([series(1, 1_000_001, 0, 0, 1000), series(1, 1_000_001, 0, 0, 999), series(1, 1_000_002, 0, 0, 999)],
             [position(series=i, q=100_000, pe=1) for i in range(3)]), [100, 100, 200]),
]

# Contracts blocked as collateral (document 02 [9]): amounts are over Q, however many are blocked
BLOCKED = [
    (account(CALL, [position(side=0, premium=7, blocked=blocked) for blocked in (0, 1, 5, 9, 10)]), [350] * 5),
    (account(PUT, [position(), position(side=0, q=1, pe=3000, blocked=1),
                   position(side=0, q=3, pe=3000, premium=20, blocked=2)]), [35_000, 0, 300]),
    # each byte of the number alone, and all three
    (account(CALL, [position(side=0, q=100_000, premium=1, blocked=blocked)
                    for blocked in (255, 65_280, 65_536, 66_051, 100_000)]), [500_000] * 5),
    # the same with a barrier, knocked in, knocked out and with a limiter
    (account(CALL, [position(side=0, kind=1, price=3500, blocked=10, premium=1),
                    position(side=0, kind=2, flags=5, price=3500, blocked=1, premium=2),
                    position(side=0, kind=3, flags=20, price=2500, reb=9, blocked=10, premium=3),
                    position(side=0, flags=6, pb=3300, blocked=4)]), [50, 100, 150, 0]),
    # the largest premium, all blocked
    (account([series(m=1000)], [position(side=0, q=100_000, premium=10_000_000, blocked=100_000)]), [10 ** 15]),
    # 8: above Q, by one and with each byte alone, in the first row and in the last
    (one(side=0, blocked=11), 'refused 8 0'),
    (one(side=0, blocked=256), 'refused 8 0'),
    (one(side=0, blocked=65_546), 'refused 8 0'),
    (one(side=0, q=100_000, blocked=100_001), 'refused 8 0'),
    (last(side=0, blocked=0xff_ffff), 'refused 8 2'),
    # 7: of a written row, each byte alone, whether or not it is above Q
    (one(q=100_000, blocked=256), 'refused 7 0'),
    (last(q=100_000, blocked=65_536), 'refused 7 2'),
    (one(blocked=11), 'refused 7 0'),
    # 7 before 8, and 8 before 9 and 10
    (one(blocked=1, q=0), 'refused 7 0'),
    (one(side=0, kind=5, blocked=11), 'refused 7 0'),
    (one(side=0, pb=1, blocked=11), 'refused 8 0'),
    (one(side=0, price=1, blocked=11), 'refused 8 0'),
    (one(side=0, pb=1, blocked=10), 'refused 9 0'),
]

REFUSED = [
    # 1: the size of the file
    (b'', 'refused 1 0'),
    (b'\0' * 11, 'refused 1 0'),
    (account([series()] * 32, [position()] * 256, cover=b'\0' * 56_565), 'refused 1 0'),
    # 2: the trailer
    (account([], [position()]), 'refused 2 0'),
    (account([series()] * 33, [position()]), 'refused 2 0'),
    (account(CALL, [position()] * 257), 'refused 2 0'),
    (account(CALL, [position()], tail=(0, 0, 0, 1)), 'refused 2 0'),
    (account(CALL, [position()], tail=(1, 0, 0, 0)), 'refused 2 0'),
    (account([], [], distance=12), 'refused 2 0'),
    (account(CALL, [], s=0), 'refused 2 0'),
    (account(CALL, [], tail=(0, 0, 0, 1)), 'refused 2 0'),
    (account(CALL, [], tail=(1, 0, 0, 0), distance=7), 'refused 2 0'),
    # 3 is given to no file
    # 4: the distance
    (account(CALL, [position()], distance=67), 'refused 4 0'),
    (account(CALL, [position()], distance=69), 'refused 4 0'),
    (account(CALL, [position()], distance=0xffffffff), 'refused 4 0'),
    (account(CALL, [position()])[1:], 'refused 4 0'),
    (account(CALL, [position()], s=2), 'refused 4 0'),
    (account(CALL, [], distance=7), 'refused 4 0'),
    (account(CALL, [], distance=35), 'refused 4 0'),
    (account(CALL, [], distance=37), 'refused 4 0'),
    (account(CALL, [])[1:], 'refused 4 0'),
    (account([series(pv=0)], [], distance=37), 'refused 4 0'),
    # 5: a series' ranges, in the first and in the last row
    (account([series(pv=0)], [position()]), 'refused 5 0'),
    (account([series(pv=10_000_001)], [position()]), 'refused 5 0'),
    (account([series(fa=999_999)], [position()]), 'refused 5 0'),
    (account([series(fa=10_000_001)], [position()]), 'refused 5 0'),
    (account([series(fb=1_200_001)], [position()]), 'refused 5 0'),
    (account([series(f3=1_000_001)], [position()]), 'refused 5 0'),
    (account([series(m=0)], [position()]), 'refused 5 0'),
    (account([series(), series(), series(m=1001)], [position()]), 'refused 5 2'),
    (account([series(), series(m=0)], []), 'refused 5 1'),
    (account([series()] * 31 + [series(pv=0)], []), 'refused 5 31'),
    # the trailer counts no positions, so that the 24 bytes before it, Q 10 and PE 3100 first, are the series row
    (account(CALL, [position()], p=0), 'refused 5 0'),
    # 6: a series' type and spare bytes
    (account([series(option=2)], [position()]), 'refused 6 0'),
    (account([series(spare=(1, 0, 0))], [position()]), 'refused 6 0'),
    (account([series(), series(spare=(0, 0, 1))], [position()]), 'refused 6 1'),
    (account([series(), series(option=2)], []), 'refused 6 1'),
    (account([series(), series(spare=(0, 1, 0))], []), 'refused 6 1'),
    # 7: series, side, kind, flags, spare bytes
    (one(series=1), 'refused 7 0'),
    (one(series=65_535), 'refused 7 0'),
    (one(side=2), 'refused 7 0'),
    (one(kind=5, price=3500), 'refused 7 0'),
    (one(flags=16), 'refused 7 0'),
    (one(flags=5), 'refused 7 0'),
    (one(kind=3, flags=5, price=3500), 'refused 7 0'),
    (one(kind=4, flags=5, price=2500), 'refused 7 0'),
    (one(blocked=1), 'refused 7 0'),
    (last(blocked=255 << 16), 'refused 7 2'),
    # flag 16 with a knock-in, beside flag 1, and beside a bit without a meaning
    (one(kind=1, flags=20, price=3500), 'refused 7 0'),
    (one(kind=2, flags=20, price=2500), 'refused 7 0'),
    (one(kind=3, flags=21, price=3500), 'refused 7 0'),
    (last(kind=4, flags=52, price=2500), 'refused 7 2'),
    # 8: Q, PE, REB, premium
    (one(q=0), 'refused 8 0'),
    (one(q=100_001), 'refused 8 0'),
    (one(pe=0), 'refused 8 0'),
    (one(pe=10_000_001), 'refused 8 0'),
    (one(kind=1, price=3500, reb=10_000_001), 'refused 8 0'),
    (one(reb=10_000_001), 'refused 8 0'),
    (one(side=0, premium=10_000_001), 'refused 8 0'),
    (last(premium=1), 'refused 8 2'),
    # 9: PB
    (one(pb=1), 'refused 9 0'),
    (one(flags=6, pb=3100), 'refused 9 0'),
    (one(flags=6, pb=10_000_001), 'refused 9 0'),
    (account(PUT, [position(flags=6, pb=3100)]), 'refused 9 0'),
    (last(flags=6, pb=0), 'refused 9 2'),
    # 10: barrier price, or REB with kind 0
    (one(price=1), 'refused 10 0'),
    (one(reb=1), 'refused 10 0'),
    (one(kind=1, price=0), 'refused 10 0'),
    (one(kind=1, price=10_000_001), 'refused 10 0'),
    (one(kind=1, flags=5, price=0), 'refused 10 0'),
    (last(kind=2, flags=5, price=10_000_001), 'refused 10 2'),
    # flag 16 frees the barrier price from its side of PV, not from its range
    (one(kind=3, flags=20, price=0), 'refused 10 0'),
    (last(kind=4, flags=20, price=10_000_001), 'refused 10 2'),
    # 11: the side of PV
    (one(kind=1, price=3000), 'refused 11 0'),
    (one(kind=2, price=3000), 'refused 11 0'),
    (one(kind=3, price=2999), 'refused 11 0'),
    (last(kind=4, price=3001), 'refused 11 2'),
    # two faults at once: the first check, the earlier table and the earlier row win
    (account([series(pv=0, option=2)], [position()]), 'refused 5 0'),
    (account([series(), series(option=2)], [position(q=0)]), 'refused 6 1'),
    (account(CALL, [position(kind=1, price=3000), position(series=1)]), 'refused 11 0'),
    (one(kind=5, q=0), 'refused 7 0'),
    (one(q=0, pb=1), 'refused 8 0'),
    (one(pb=1, price=1), 'refused 9 0'),
    (one(flags=6, kind=1, pb=3100, price=3000), 'refused 9 0'),
    (one(kind=1, price=0, reb=1), 'refused 10 0'),
]

CASES = ACCEPTED + REFUSED + IN_REAIS + BLOCKED


def told(answer):
    if isinstance(answer, str):
        return answer + '\n'
    return ''.join(f'amount {row} {amount}\n' for row, amount in enumerate(answer)) + 'refused 13 0\n'


write('crates/position_amounts/stdin', framed([f for f, _ in CASES]) + b'\x44\0\0\0cut')
write('crates/position_amounts/stdout', (''.join(told(answer) for _, answer in CASES) + 'cut off\n').encode())

# What the C client is run on.
write('examples/document.account', EXAMPLE)
write('examples/knock_in.account', account(CALL, rows(CHECKED_CALLS[2:6]), cover=b'knock-in calls\n'))
write('examples/knock_out.account', account(CALL, rows(CHECKED_CALLS[6:10]), cover=b'knock-out calls\n'))
write('examples/largest.account', LARGEST)
write('examples/limiters.account', LIMITERS)
write('examples/no_positions.account', NO_POSITIONS)
write('examples/wrong_side.account', last(kind=4, price=3001))
