"""Misreadings of the load, document 02, request 10; the form of a table is told in misreadings.py."""
LOAD = 'load.rs'
NEXT = '''        self.0 = MULTIPLIER * self.0 % MODULUS;
        self.0
'''
DRAW = '(self.step() % u64::from(k)) as u32'
SEEDED = 'let mut state = State::seeded(seed);'
ROWS = '(0..p).map(|_| drawn_row(&mut state, series.pv)).collect();'
PV = '    let pv = 1_000 + state.draw(9_000);\n'
FA = '    let fa = 1_000_000 + state.draw(500_000);\n'
FB = '    let fb = 500_000 + state.draw(500_001);\n'
M = '    let m = 1 + state.draw(10);\n'
TYPE = '    let type_byte = state.draw(2) as u8;\n'
F3 = '    let f3 = 50_000;\n'
SIDE = '    let side = state.draw(2) as u8;\n'
KIND = '    let kind = state.draw(5) as u8;\n'
Q = '    let quantity = 1 + state.draw(100);\n'
PE = '    let strike = 1 + state.draw(10_000);\n'
BARRIER = '        barrier = drawn_barrier(state, kind, pv);\n'
REB = '        rebate = state.draw(100);\n'
DRAWN = BARRIER + REB + '    }\n'
UP_KINDS, UP, DOWN = 'UP_AND_IN | UP_AND_OUT =>', 'pv + 1 + state.draw(1_000),', '1 + state.draw(pv - 1),'
FLAGS = 'flags: FLAG_EUROPEAN,'
ACCOUNT = 'Draft::new(vec![series], rows)'
NUMBER = 'Err(Refusal { number: 20, row: 0 });'
SEED_TEST = 'if !(LEAST_SEED..=MOST_SEED).contains(&seed) {'
P_TEST = 'if !(LEAST_ROWS..=MOST_ROWS).contains(&p) {'
ROOM_TEST = 'if buffer.len() < distance(1, p as usize) {'
MAKE = '    let file = drawn_account(seed, p).bytes();\n'
WRITE = '    buffer[..file.len()].copy_from_slice(&file);\n'
ANSWER = 'Ok(file.len())'
REFUSED = 'let refused = ' + NUMBER


def load(*changes):
    return [(LOAD, old, new) for old, new in changes]


def within(old, new, *texts):
    """The same change in each of these texts."""
    return load(*[(text, text.replace(old, new)) for text in texts])


def exchanged(first, second):
    """Two lines that follow each other, in the other order."""
    return load((first + second, second + first))


def account_with(fields):
    return load((ACCOUNT, f'Draft {{ {fields}, ..{ACCOUNT} }}'))


# As much of the file as the buffer has room for.
FITTED = load((MAKE, MAKE + '    let file = &file[..file.len().min(buffer.len())];\n'),
              (WRITE, WRITE.replace('&file', 'file')))
STATES = [
    ('multiplier 16807', 'the state goes from t to 16807 × t',
     load(('MULTIPLIER: u64 = 48_271;', 'MULTIPLIER: u64 = 16_807;'))),
    ('modulus 2147483648', 'the state taken mod 2147483648', within(' % MODULUS', ' % (MODULUS + 1)', NEXT)),
    ('modulus 2147483646', 'the state taken mod 2147483646', within(' % MODULUS', ' % MOST_SEED', NEXT)),
    ('product of 32 bits', 'the lower half of 48271 × t taken',
     within('MULTIPLIER * self.0', '(MULTIPLIER * self.0) as u32 as u64', NEXT)),
    ('state before', 'draw(k) of the state before it goes on',
     load((NEXT, '        let before = self.0;\n' + NEXT.replace('self.0\n', 'before\n')))),
    ('one step more', 'the first state not drawn from', load((SEEDED, SEEDED + '\n    state.step();'))),
    ('two steps', 'the state goes two steps on at each draw',
     within('self.step()', '{ self.step(); self.step() }', DRAW)),
    ('draw not advanced', 'every number drawn from the state after the seed',
     load((NEXT, '        MULTIPLIER * self.0 % MODULUS\n'))),
    ('draws scaled', 'draw(k) as state × k / 2147483647',
     load((DRAW, '(self.step() * u64::from(k) / MODULUS) as u32'))),
    ('drawn number for a state', 'the next state from the number drawn',
     load((DRAW, '{ self.0 = self.step() % u64::from(k); self.0 as u32 }'))),
    ('rows not advanced', 'the seed not advanced between rows', within('&mut state', '&mut State(state.0)', ROWS)),
    ('rows from the seed', 'the rows drawn from the seed again',
     within('(0..p)', '{ state = State(seed); 0..p }', ROWS)),
    ('seeds of rows', 'row r drawn from seed + r',
     load((ROWS, '(0..p).map(|row| drawn_row(&mut State(seed + row), series.pv)).collect();'))),
    ('last row first', 'the rows written from the last to the first',
     within('.collect()', '.collect::<Vec<_>>().into_iter().rev().collect()', ROWS)),
]
SERIES = [
    ('fa before PV', 'fa drawn before PV', exchanged(PV, FA)),
    ('fb before fa', 'fb drawn before fa', exchanged(FA, FB)),
    ('M before fb', 'M drawn before fb', exchanged(FB, M)),
    ('type before M', 'the type drawn before M', exchanged(M, TYPE)),
    ('type first', 'the type drawn before all others', load((PV, TYPE + PV), (M + TYPE, M))),
    ('f3 drawn', 'f3 drawn before M, as it stands in the row',
     load((M, '    let f3 = state.draw(50_001);\n' + M), (TYPE + F3, TYPE))),
    ('f3 skipped', 'a number drawn in the place of f3 and not used', load((M, '    state.step();\n' + M))),
    ('f3 500', 'f3 in ten thousandths', within('50_000', '500', F3)),
    ('PV below 1,000', 'PV 2 + draw(9998)', within('1_000 + state.draw(9_000)', '2 + state.draw(9_998)', PV)),
    ('PV 10,000', 'PV up to 10,000', within('9_000', '9_001', PV)),
    ('fa 1,500,000', 'fa up to 1,500,000', within('500_000', '500_001', FA)),
    ('fb below one', 'fb up to 999,999, like fa', within('500_001', '500_000', FB)),
    ('M from 0', 'M draw(10)', within('1 + ', '', M)),
    ('M up to 11', 'M 1 + draw(11)', within('(10)', '(11)', M)),
    ('0 put', 'type 0 taken as a put', within('state.draw(2)', '(1 - state.draw(2))', TYPE)),
]
POSITIONS = [
    ('kind before side', 'the kind drawn before the side', exchanged(SIDE, KIND)),
    ('Q before kind', 'Q drawn before the kind', exchanged(KIND, Q)),
    ('PE before Q', 'PE drawn before Q', exchanged(Q, PE)),
    ('REB before the barrier', 'REB drawn before the barrier', exchanged(BARRIER, REB)),
    ('kind 0 draws both', 'barrier and REB drawn for kind 0 too, and not used', load(
        (DRAWN, BARRIER + REB + '    } else {\n        state.step();\n        state.step();\n    }\n'))),
    ('kind 0 draws REB', 'REB drawn for kind 0 too, and not used',
     load((DRAWN, BARRIER + REB + '    } else {\n        state.step();\n    }\n'))),
    ('REB of kind 0', 'REB drawn for kind 0 too, and written', load((DRAWN, BARRIER + '    }\n' + REB))),
    ('barrier of kind 0', 'barrier and REB drawn for kind 0 too, and written',
     load(('if kind != NO_BARRIER {', 'if kind < 5 {'))),
    ('1 held', 'side 0 taken as written', within('state.draw(2)', '(1 - state.draw(2))', SIDE)),
    ('kinds from 1', 'kind 1 + draw(4)', within('state.draw(5)', '(1 + state.draw(4))', KIND)),
    ('kinds up to 3', 'kind draw(4)', within('draw(5)', 'draw(4)', KIND)),
    ('in up, out down', 'the barriers of kinds 1 and 2 up, of 3 and 4 down', load((UP_KINDS, 'UP_AND_IN | 2 =>'))),
    ('up and down exchanged', 'the barriers of kinds 2 and 4 up, of 1 and 3 down', load((UP_KINDS, '2 | 4 =>'))),
    ('Q from 0', 'Q draw(100)', within('1 + ', '', Q)),
    ('Q up to 101', 'Q 1 + draw(101)', within('(100)', '(101)', Q)),
    ('PE from 0', 'PE draw(10000)', within('1 + ', '', PE)),
    ('PE about PV', 'PE PV + draw(10000)', within('1 + ', 'pv + ', PE)),
    ('barrier at PV', 'an up barrier at PV + draw(1000)', within('1 + ', '', UP)),
    ('barrier up to PV + 1001', 'an up barrier at PV + 1 + draw(1001)', within('(1_000)', '(1_001)', UP)),
    ('down barrier at PV', 'a down barrier at 1 + draw(PV)', within('pv - 1', 'pv', DOWN)),
    ('down barrier from 0', 'a down barrier at draw(PV − 1)', within('1 + ', '', DOWN)),
    ('down barrier below PV', 'a down barrier at PV − 1 − draw(1000)', load((DOWN, 'pv - 1 - state.draw(1_000),'))),
    ('down barrier from PV', 'a down barrier at PV − 1 − draw(PV − 1)', within('1 + ', 'pv - 1 - ', DOWN)),
    ('REB from 1', 'REB 1 + draw(100)', within('= ', '= 1 + ', REB)),
    ('REB up to 100', 'REB draw(101)', within('(100)', '(101)', REB)),
    ('REB of knock-outs', 'REB drawn for kinds 3 and 4 alone',
     within('state.draw(100)', 'if kind > 2 { state.draw(100) } else { 0 }', REB)),
]
FILE = [
    ('flags 0', 'no flag', load((FLAGS, 'flags: 0,'))),
    ('flags 8', 'opened before the annex', load((FLAGS, 'flags: 8,'))),
    ('flags 12', 'European and opened before the annex', load((FLAGS, 'flags: 12,'))),
    ('bit 4', 'the bit with number 4 set', load((FLAGS, 'flags: 16,'))),
    ('flag 4 without barrier', 'flag 4 on rows without a barrier alone',
     load((FLAGS, 'flags: if kind > 0 { 0 } else { 4 },'))),
    ('series from 1', 'the series of a row counted from 1', load(('series: 0,', 'series: 1,'))),
    ('series by row', 'a series drawn for each row', load(('series: 0,', 'series: state.draw(2) as u16,'))),
    ('premium drawn', 'a premium drawn for held rows',
     load(('premium: 0,', 'premium: if side == 0 { state.draw(100) } else { 0 },'))),
    ('limiter drawn', 'a limiter drawn', load(('limiter: 0,', 'limiter: 1 + state.draw(1_000),'))),
    ('blocked drawn', 'blocked contracts drawn for held rows',
     load(('blocked: 0,', 'blocked: if side == 0 { state.draw(quantity) } else { 0 },'))),
    ('cover sheet', 'four zero bytes before the series', account_with('cover: vec![0; 4]') + FITTED),
    ('s = 0', 'no series counted', account_with('stated_s: Some(0)')),
    ('s = 32', 's the most that there can be', account_with('stated_s: Some(32)')),
    ('p of 8 bits', 'p written as one byte', account_with('stated_p: Some((p as u8).into())')),
    ('distance without trailer', 'the distance counted from the trailer',
     account_with('stated_distance: Some(24 + 32 * p as u32)')),
    ('distance to the rows', 'the distance back to the first position row',
     account_with('stated_distance: Some(12 + 32 * p as u32)')),
    ('distance of 256 rows', 'the distance of the longest file', account_with('stated_distance: Some(8_228)')),
    ('last bytes', 'the seed in the last four bytes', account_with('last_four: (seed as u32).to_le_bytes()')),
]
BUFFER = [
    ('rest zeroed', 'the bytes after the file made zeros',
     load((WRITE, WRITE + '    buffer[file.len()..].fill(0);\n'))),
    ('one byte zeroed', 'the byte after the file made zero',
     load((WRITE, WRITE + '    buffer[file.len()..].iter_mut().take(1).for_each(|byte| *byte = 0);\n'))),
    ('at the end', 'the file written at the end of the buffer',
     load((WRITE, '    let start = buffer.len() - file.len();\n    buffer[start..].copy_from_slice(&file);\n'))),
    ('spare bytes kept', 'the spare bytes of the rows not written', load((WRITE, '''
    for (at, byte) in file.iter().enumerate() {
        if at < 24 || at >= file.len() - 12 || !(5..8).contains(&((at - 24) % 32)) {
            buffer[at] = *byte;
        }
    }
'''))),
    ('zeros not written', 'the buffer taken to hold zeros before', load(
        (WRITE, '    buffer.iter_mut().zip(&file).for_each(|(to, from)| if *from > 0 { *to = *from });\n'))),
    ('room reported', 'the bytes of the buffer given', load((ANSWER, 'Ok(buffer.len())'))),
    ('rows reported', 'p given', load((ANSWER, 'Ok(p as usize)'))),
    ('rows alone reported', 'the bytes before the trailer given', load((ANSWER, 'Ok(file.len() - 12)'))),
    ('exact buffer', 'a buffer that is longer than the file refused', within('<', '!=', ROOM_TEST)),
    ('exact buffer refused', 'a buffer as long as the file refused', within('<', '<=', ROOM_TEST)),
    ('one byte short', 'a buffer one byte short accepted, the last byte of the file left out',
     within('len() <', 'len() + 1 <', ROOM_TEST) + FITTED),
    ('any buffer', 'no buffer too short, the file cut', within('len() <', 'len() + 65_536 <', ROOM_TEST) + FITTED),
    ('NULL buffer', 'a buffer of no bytes accepted, and the bytes needed given',
     within('if ', 'if !buffer.is_empty() && ', ROOM_TEST)
     + load((WRITE, '    if !buffer.is_empty() {\n    ' + WRITE + '    }\n'))),
    ('room for 256 rows', 'a buffer refused that is too short for 256 rows', within('p as usize', '256', ROOM_TEST)),
    ('short, but written', 'as much as fits written where the buffer is too short', within(
        '{', '{\n        let file = drawn_account(seed, p).bytes();\n        let room = buffer.len();\n'
        '        buffer.copy_from_slice(&file[..room]);', ROOM_TEST)),
    ('short, but series written', 'the series written before the buffer is looked at', within(
        'if ', 'if let Some(start) = buffer.get_mut(..24) {\n'
        '        start.copy_from_slice(&drawn_account(seed, p).bytes()[..24]);\n    }\n    if ', ROOM_TEST)),
]
RANGES = [
    ('seed 0', 'seed 0 accepted', within('LEAST_SEED', '0', SEED_TEST)),
    ('seed 1', 'seed 1 refused', within('LEAST_SEED', '2', SEED_TEST)),
    ('seed 2147483647', 'seed 2147483647 accepted', within('MOST_SEED', 'MODULUS', SEED_TEST)),
    ('seed 2147483646', 'seed 2147483646 refused', within('..=', '..', SEED_TEST)),
    ('any seed', 'no seed refused', load((SEED_TEST, 'if false {'))),
    ('seed by the modulus', 'a seed taken mod 2147483647 first',
     within('if ', 'let seed = seed % MODULUS;\n    if ', SEED_TEST)),
    ('seed of 32 bits', 'the lower half of the seed taken',
     within('if ', 'let seed = u64::from(seed as u32);\n    if ', SEED_TEST)),
    ('0 rows', 'p = 0 accepted', within('LEAST_ROWS', '0', P_TEST)),
    ('1 row', 'p = 1 refused', within('LEAST_ROWS', '2', P_TEST)),
    ('256 rows', 'p = 256 refused', within('..=', '..', P_TEST)),
    ('257 rows', 'p = 257 accepted', within('MOST_ROWS', '257', P_TEST)),
    ('more rows', 'p above 256 taken for 256', within('if ', 'let p = p.min(256);\n    if ', P_TEST)),
    ('rows of 8 bits', 'the lowest byte of p taken, 256 for 0',
     within('if ', 'let p = if p == 256 { 256 } else { p % 256 };\n    if ', P_TEST)),
    ('rows of 32 bits', 'the lower half of p taken', within('if ', 'let p = u64::from(p as u32);\n    if ', P_TEST)),
    ('bytes of 64 bits', 'p not looked at, 36 + 32 × p made in 64 bits, and rows as many as fit', load(
        (P_TEST, 'if false {'),
        (ROOM_TEST, 'if (buffer.len() as u64) < 36u64.wrapping_add(p.wrapping_mul(32)) {'),
        (MAKE, '    let p = p.min((buffer.len() as u64 - 36) / 32);\n' + MAKE))),
    ('number 19', 'the number of taking apart given', within('20', '19', REFUSED)),
    ('number 12', 'a buffer too short refused with 12, like a list',
     load((ROOM_TEST, ROOM_TEST + '\n        let refused = Err(Refusal { number: 12, row: 0 });'))),
    ('row 1', 'refused with row 1', within('row: 0', 'row: 1', REFUSED)),
    ('row p', 'refused with p for the row', within('row: 0', 'row: p as usize', REFUSED)),
    ('refused, but zeroed', 'the buffer made zeros before anything is looked at', within(
        'let ', 'buffer.fill(0);\n    let ', REFUSED)),
]
TABLE = STATES + SERIES + POSITIONS + FILE + BUFFER + RANGES
