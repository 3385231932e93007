"""Misreadings of the proviso of document 02, request 11; the form of a table is told in misreadings.py."""
PROMISED = 'brute_force/promised.rs'
EXCLUDED = '!account.positions.iter().any(|position| excluded(account, position))'
WRITTEN = 'position.side == Side::Written'
PUT = 'series.option_type == OptionType::Put'
UP_AND_IN = 'matches!(position.barrier, Barrier::UpAndIn(_))'
NOT_YET = '!position.already_knocked_in'
ABOVE = 'series.fb > MILLION'
LEAST = 'account.series.iter().all(|series| series.fb <= MILLION)'


def change(old, new):
    return [(PROMISED, old, new)]


TABLE = [
    ('proviso dropped', 'the cover promised of every account', change(EXCLUDED, 'account.positions.len() < usize::MAX')),
    ('calls for puts', 'calls excluded, and not puts', change(PUT, PUT.replace('Put', 'Call'))),
    ('held for written', 'held rows excluded, and not written ones', change(WRITTEN, WRITTEN.replace('Written', 'Held'))),
    ('down for up', 'down-and-in excluded, and not up-and-in', change(UP_AND_IN, UP_AND_IN.replace('Up', 'Down'))),
    ('knocked in for not yet', 'rows with flag 1 excluded, and not those without', change(NOT_YET, NOT_YET[1:])),
    ('calls too', 'calls excluded as puts are', change(PUT, 'series.pv > 0')),
    ('held too', 'held rows excluded as written ones are', change(WRITTEN, 'position.quantity > 0')),
    ('down-and-in too', 'both kinds of knock-in excluded',
     change(UP_AND_IN, 'matches!(position.barrier, Barrier::UpAndIn(_) | Barrier::DownAndIn(_))')),
    ('up-and-out too', 'both kinds of up barrier excluded',
     change(UP_AND_IN, 'matches!(position.barrier, Barrier::UpAndIn(_) | Barrier::UpAndOut(_))')),
    ('knocked in too', 'rows with flag 1 excluded as those without', change(NOT_YET, 'position.quantity > 0')),
    ('fb from one on', 'rows excluded where fb is 1,000,000', change(ABOVE, 'series.fb >= MILLION')),
    ('fb above 1,000,001', 'rows not excluded where fb is 1,000,001', change(ABOVE, 'series.fb > MILLION + 1')),
    ('fb of any series', 'rows excluded where some series has an fb above 1,000,000',
     change(ABOVE, 'account.series.iter().any(|series| series.fb > MILLION)')),
    ('first row alone', 'the first row of the account looked at, and no other',
     change(EXCLUDED, EXCLUDED.replace('.iter()', '.iter().take(1)'))),
    ('least amount with any fb', 'the least amount promised with any fb',
     change(LEAST, 'account.series.len() < usize::MAX')),
    ('least amount below one', 'the least amount promised where every fb is below 1,000,000',
     change(LEAST, LEAST.replace('<=', '<'))),
    ('least amount of some series', 'the least amount promised where some fb is at most 1,000,000',
     change(LEAST, LEAST.replace('all', 'any'))),
]
