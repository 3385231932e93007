"""Misreadings of pairing in instalments, document 02, request 7; the form of a table is told in misreadings.py."""
INSTALMENTS, LINES, PAIRING = 'instalments.rs', 'lines.rs', 'pairing.rs'
WHILE = 'while made < allowance {'
MADE = '            made += 1;\n'
BEGUN = 'let contracts_left = contracts(&account);'
AMOUNT = 'margin_with(&self.account, self.pairs.clone(), &self.contracts_left).total'
READ = '    let account = read_account(bytes)?;\n'
CHECK_12 = '    list_long_enough(&account, list)?;\n'
REFUSED_12 = '''    if %s {
        return Err(Refusal { number: 12, row: 0 });
    }
'''
FIRST_PAIRS = '    let made = half.make(count);\n'
CHECK_18 = '''    if made != count || list[..lines.len()] != lines {
        return Err(Refusal { number: 18, row: 0 });
    }
'''
OTHER_LINES = 'list[..lines.len()] != lines'
HALF = '''    let mut half = read_half_paired(bytes, list, count)?;
    let before = half.pairs.len();
'''
MAKE = '    let made = half.make(allowance);\n'
WRITE = '''    for (entry, pair) in list[before..].iter_mut().zip(&half.pairs[before..]) {
        *entry = pair_entry(pair);
    }
'''
ANSWER = '    Ok(made)\n}'
SO_FAR = 'Ok(read_half_paired(bytes, list, count)?.amount())'
LEFT_LINES = '''    let whole = crate::lines::margin_with(&half.account, half.pairs.clone(), &half.contracts_left);
    for (entry, l) in list[half.pairs.len()..].iter_mut().zip(&whole.left) {
        *entry = [2, l.row as u64, l.quantity as u64, l.amount as u64, 0];
    }
'''


def instalments(*changes):
    return [(INSTALMENTS, old, new) for old, new in changes]


def other_lines(text):
    return instalments((OTHER_LINES, text))


def other_numbers(count, allowance='allowance'):
    """Other numbers than those handed over, from the start of both calls."""
    return instalments((HALF, f'    let (count, allowance) = ({count}, {allowance});\n' + HALF),
                       (SO_FAR, f'let count = {count};\n    {SO_FAR}'))


def amount(text):
    """Another amount, given the margin with the pairs so far as `m`."""
    return instalments((AMOUNT, f'let m = {AMOUNT[:-len(".total")]};\n        {text}'))


def places(*compared):
    """Of the five numbers of a line these are compared."""
    return other_lines(f'list.iter().zip(&lines).any(|(e, l)| {list(compared)}.iter().any(|&at: &usize| e[at] != l[at]))')


ALLOWED = [
    ('no allowance', 'all pairs made, whatever is allowed', instalments((MAKE, MAKE.replace('allowance', 'u64::MAX')))),
    ('zero means all', 'an allowance of 0 taken as no limit',
     instalments((MAKE, MAKE.replace('allowance', 'if allowance == 0 { u64::MAX } else { allowance }')))),
    ('zero makes one', 'a pair made before the allowance is looked at',
     instalments((MAKE, MAKE.replace('allowance', 'allowance.max(1)')))),
    ('one more', 'one pair more than allowed',
     instalments((MAKE, MAKE.replace('allowance', 'allowance.saturating_add(u64::from(allowance > 0))')))),
    ('one less', 'one pair less than allowed',
     instalments((MAKE, MAKE.replace('allowance', 'allowance.saturating_sub(1)')))),
    ('pairs in all', 'the allowance taken for all pairs in the list, not for those of this call',
     instalments((MAKE, MAKE.replace('allowance', 'allowance.saturating_sub(count)')))),
    ('allowed contracts', 'the allowance taken for contracts, not for pairs',
     instalments((WHILE, 'let before = self.pairs.len();\n        '
                  'while (self.pairs[before..].iter().map(|p| p.quantity as u64).sum::<u64>()) < allowance {'),
                 (FIRST_PAIRS, '    let mut made = 0;\n    while made < count && half.make(1) == 1 {\n'
                  '        made += 1;\n    }\n'))),
    ('allowance of 32 bits', 'the lower half of the allowance taken', other_numbers('count', 'allowance as u32 as u64')),
    ('allowance of 8 bits', 'the lowest byte of the allowance taken', other_numbers('count', 'allowance as u8 as u64')),
]
PAIRS = [
    ('begun anew', 'pairs made from the first on, whatever is in the list',
     instalments((MAKE, '    half = HalfPaired::begun(half.account);\n' + MAKE),
                 (WRITE, '    for (entry, pair) in list[before..].iter_mut().zip(&half.pairs) {\n'
                  '        *entry = pair_entry(pair);\n    }\n'))),
    ('written from the first entry', 'the new lines written from the first entry of the list',
     instalments((WRITE, WRITE.replace('list[before..]', 'list')))),
    ('written one entry on', 'the new lines written one entry behind those in the list',
     instalments((WRITE, WRITE.replace('.iter_mut()', '.iter_mut().skip(1)')))),
    ('last pair first', 'the new lines written from the last to the first',
     instalments((WRITE, WRITE.replace('&half.pairs[before..]', 'half.pairs[before..].iter().rev()')))),
    ('left lines too', 'left lines written behind the pairs, after every call',
     instalments((ANSWER, LEFT_LINES + ANSWER))),
    ('left lines at the end', 'left lines written behind the pairs, once no more can be made',
     instalments((ANSWER, '    if made < allowance {\n' + LEFT_LINES + '    }\n' + ANSWER))),
    ('other entries cleared', 'the entries behind the new lines made zeros',
     instalments((ANSWER, '    list[half.pairs.len()..].fill([0; 5]);\n' + ANSWER))),
    ('next entry cleared', 'the entry behind the new lines made zeros',
     instalments((ANSWER, '    list[half.pairs.len()..].iter_mut().take(1).for_each(|e| *e = [0; 5]);\n' + ANSWER))),
    ('all pairs reported', 'all pairs in the list reported, not those of this call',
     instalments((ANSWER, ANSWER.replace('made', 'made + count')))),
    ('pairs left reported', 'the pairs still to be made reported',
     instalments((ANSWER, ANSWER.replace('made', 'half.make(u64::MAX)')))),
    ('allowance reported', 'the allowance reported as pairs made',
     instalments((ANSWER, ANSWER.replace('made', 'allowance')))),
]
AMOUNTS = [
    ('premiums left out', 'the amount so far without the premiums', amount('m.total - m.premium')),
    ('premiums of pairs', 'premiums only of held rows that are in a pair',
     amount('m.total - m.premium + (0..self.account.positions.len()).filter(|r| m.pairs.iter().any(|p| p.held == *r))'
            '.map(|r| crate::position::premium_amount(&self.account, r)).sum::<i64>()')),
    ('remainders left out', 'the pairs so far and the premiums alone',
     amount('m.total - m.left.iter().map(|l| l.amount).sum::<i64>()')),
    ('pairs left out', 'the remainders and the premiums alone',
     amount('m.total - m.pairs.iter().map(|p| p.amount).sum::<i64>()')),
    ('untouched rows alone', 'a remainder counted only where no contract of its row is in a pair',
     amount('m.total - m.left.iter().filter(|l| m.pairs.iter().any(|p| p.written == l.row))'
            '.map(|l| l.amount).sum::<i64>()')),
    ('whole rows', 'a row with contracts left counted with all its contracts',
     amount('m.total + m.left.iter().filter(|l| m.pairs.iter().any(|p| p.written == l.row))'
            '.map(|l| crate::position::position_amount(&self.account, l.row) - l.amount).sum::<i64>()')),
    ('held remainders by premium', 'the premium of what is left of a held row counted once more',
     amount('m.total + m.left.iter().map(|l| self.account.positions[l.row].premium * self.account.series_of(l.row).m '
            '* l.quantity).sum::<i64>()')),
    ('remainders rounded together', 'the remainders summed exactly, and then rounded up to a real',
     amount('m.total - m.left.iter().map(|l| l.amount).sum::<i64>() + ((m.left.iter().map(|l| '
            'crate::lines::exact_of_left(&self.account, l.row, l.quantity)).sum::<i128>() + 99_999_999) '
            '/ 100_000_000 * 100) as i64')),
    ('amount in reais', 'the amount so far, premiums and all, rounded up to a real',
     amount('(m.total + 99) / 100 * 100')),
    ('amount after all pairs', 'the total after all pairs, whatever the count', amount(
        'drop(m);\n        crate::lines::margin(&self.account).total')),
    ('amount before all pairs', 'the amount without pairs, whatever the count', amount(
        'drop(m);\n        margin_with(&self.account, Vec::new(), &contracts(&self.account)).total')),
    ('amount never raised', 'the least of the amounts so far', amount(
        'let mut least = m.total;\n        if !self.pairs.is_empty() {\n'
        '            let mut earlier = HalfPaired::begun(self.account.clone());\n'
        '            earlier.make(self.pairs.len() as u64 - 1);\n'
        '            least = least.min(earlier.amount());\n        }\n        least')),
]
REFUSED = [
    ('lines not looked at', 'the lines in the list not compared', other_lines('false')),
    ('the first line', 'the first line alone compared',
     other_lines('list.iter().zip(&lines).take(1).any(|(e, l)| e != l)')),
    ('the last line', 'the last line alone compared',
     other_lines('!list[..lines.len()].ends_with(&lines[lines.len().max(1) - 1..])')),
    ('all but the last line', 'the last line not compared',
     other_lines('list.iter().zip(&lines[..lines.len().max(1) - 1]).any(|(e, l)| e != l)')),
    ('any order', 'the lines compared in any order',
     other_lines('lines.iter().any(|l| !list[..lines.len()].contains(l))')),
    ('kind not compared', 'the first number of a line not compared', places(1, 2, 3, 4)),
    ('written row not compared', 'the second number of a line not compared', places(0, 2, 3, 4)),
    ('held row not compared', 'the third number of a line not compared', places(0, 1, 3, 4)),
    ('quantity not compared', 'the fourth number of a line not compared', places(0, 1, 2, 4)),
    ('amount not compared', 'the fifth number of a line not compared', places(0, 1, 2, 3)),
    ('lines of 32 bits', 'the lower halves of the numbers compared', other_lines(
        'list.iter().zip(&lines).any(|(e, l)| e.map(|n| n as u32) != l.map(|n| n as u32))')),
    ('the entry at the count too', 'the entry behind the lines compared with the next pair',
     instalments((CHECK_18, CHECK_18 + '''    let mut next = half.clone();
    if next.make(1) == 1 && list.get(lines.len()) != next.pairs.last().map(pair_entry).as_ref() {
        return Err(Refusal { number: 18, row: 0 });
    }
'''))),
    ('count above the pairs', 'a count above the pairs taken for all of them',
     instalments((CHECK_18, CHECK_18.replace('made != count || ', '')))),
    ('left lines are lines', 'a count that takes in the left lines as they stand taken', instalments((CHECK_18, '''\
    let m = margin_with(&half.account, half.pairs.clone(), &half.contracts_left);
    let left = m.left.iter().map(|l| [2, l.row as u64, l.quantity as u64, l.amount as u64, 0]);
    let mut lines = lines;
    lines.extend(left.take(count.saturating_sub(made).min(512) as usize));
    if lines.len() as u64 != count || list[..lines.len()] != lines {
        return Err(Refusal { number: 18, row: 0 });
    }
'''))),
    ('count of 32 bits', 'the lower half of the count taken', other_numbers('count as u32 as u64')),
    ('count of 16 bits', 'the lowest two bytes of the count taken', other_numbers('count as u16 as u64')),
    ('count of 8 bits', 'the lowest byte of the count taken', other_numbers('count as u8 as u64')),
    ('18 before 12', 'the lines looked at before the length of the list', instalments(
        (CHECK_12, ''), (CHECK_18, CHECK_18.replace(OTHER_LINES, '!list.starts_with(&lines)') + CHECK_12.replace(
            'account', 'half.account')))),
    ('12 for the pairs', 'a list refused with 12 only where it has no room for the pairs', instalments(
        (CHECK_12, REFUSED_12 % 'list.len() < crate::lines::margin(&account).pairs.len()'))),
    ('12 for the count', 'a count above the list refused with 12', instalments(
        (CHECK_12, CHECK_12 + REFUSED_12 % 'count > list.len() as u64'))),
    ('12 before the reading', 'an empty list refused before the file is read', instalments(
        (READ, REFUSED_12 % 'list.is_empty()' + READ))),
    ('18 before the reading', 'a count above 255 refused before the file is read', instalments(
        (READ, '    if count > 255 {\n        return Err(Refusal { number: 18, row: 0 });\n    }\n' + READ))),
    ('row of 18', 'refusal 18 with the wrong line for its row', instalments(
        (CHECK_18, CHECK_18.replace('row: 0', 'row: list.iter().zip(&lines).take_while(|(e, l)| e == l).count()')))),
    ('15 for 18', 'the number that is not used given', instalments((CHECK_18, CHECK_18.replace('18', '15')))),
    ('refused, but written', 'the list put right where 18 is given', instalments((HALF, '''\
    if read_half_paired(bytes, list, count).is_err_and(|refusal| refusal.number == 18) {
        let mut half = HalfPaired::begun(read_account(bytes)?);
        half.make(count);
        for (entry, pair) in list.iter_mut().zip(&half.pairs) {
            *entry = pair_entry(pair);
        }
        return Err(Refusal { number: 18, row: 0 });
    }
''' + HALF))),
]
TABLE = ALLOWED + PAIRS + AMOUNTS + REFUSED
