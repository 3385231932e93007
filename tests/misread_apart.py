"""Misreadings of taking pairs apart, document 02, request 8; the form of a table is told in misreadings.py."""
INSTALMENTS = 'instalments.rs'
CHECK_19 = '''    if k > count {
        return Err(Refusal { number: 19, row: 0 });
    }
'''
# The same line begins pairing too, so it is named with what follows.
READ = '    let mut half = read_half_paired(bytes, list, count)?;\n'
CHECKS = READ + CHECK_19
CLEAR = '    list[left..before].fill([0; 5]);\n'
ANSWER = '    Ok(left as u64)\n'
ACCOUNT = '    let account = read_account(bytes)?;\n'
CHECK_12 = '    list_long_enough(&account, list)?;\n'


def apart(*changes):
    return [(INSTALMENTS, old, new) for old, new in changes]


def first(text):
    """Before anything is looked at."""
    return apart((CHECKS, text + CHECKS))


def another_k(text):
    """Another k, once it is found to be no more than the count."""
    return apart((CHECKS, CHECKS + f'    let k: u64 = {text};\n'))


def entries(text):
    """Something else done to the entries, given the pairs that there were and those left, as `before` and `left`."""
    return apart((CLEAR, f'    {text}\n'))


def and_entries(text):
    """The entries made zeros, and then something else done to them."""
    return apart((CLEAR, f'{CLEAR}    {text}\n'))


def looked_at(range_of_lines):
    """Of the lines in the list these alone compared, given all of them as `lines`."""
    return apart((CHECKS, ACCOUNT + CHECK_12 + f'''\
    let mut half = HalfPaired::begun(account);
    let made = half.make(count);
    let lines: Vec<Entry> = half.pairs.iter().map(pair_entry).collect();
    let left = count.saturating_sub(k).min(made) as usize;
    let compared = {range_of_lines};
    if made != count || list[compared.clone()] != lines[compared] {{
        return Err(Refusal {{ number: 18, row: 0 }});
    }}
''' + CHECK_19))


TAKEN = [
    ('the pairs that stay', 'k taken for the pairs that stay', another_k('count - k')),
    ('the latest pair', 'one pair taken apart, whatever k above 0', another_k('k.min(1)')),
    ('all pairs', 'all pairs taken apart, whatever k above 0', another_k('if k > 0 { count } else { 0 }')),
    ('zero takes all apart', 'k = 0 taken as no limit', another_k('if k == 0 { count } else { k }')),
    ('zero takes one apart', 'a pair taken apart before k is looked at', another_k('k.max(count.min(1))')),
    ('one more taken apart', 'one pair more than k taken apart', another_k('count.min(k + 1)')),
    ('one less taken apart', 'one pair less than k taken apart', another_k('k.saturating_sub(1)')),
    ('contracts taken apart', 'k taken for contracts, not for pairs', another_k(
        'half.pairs.iter().rev().scan(0, |sum, p| { let before = *sum; *sum += p.quantity as u64; Some(before) })'
        '.take_while(|before| *before < k).count() as u64')),
]
ENTRIES = [
    ('the first lines', 'the first k lines removed, not the latest', entries('list[..before - left].fill([0; 5]);')),
    ('the first lines, others moved up', 'the first k lines removed, and the others moved up',
     entries('list.copy_within(before - left..before, 0);\n' + CLEAR)),
    ('entries kept', 'the entries of the removed lines left as they are', entries('let _ = before;')),
    ('kind cleared', 'the first number of a removed line made zero alone',
     entries('list[left..before].iter_mut().for_each(|e| e[0] = 0);')),
    ('kind kept', 'the first number of a removed line left',
     and_entries('list[left..before].iter_mut().for_each(|e| e[0] = 1);')),
    ('contracts and amount cleared', 'the last two numbers of a removed line made zero alone',
     entries('list[left..before].iter_mut().for_each(|e| e[3..].fill(0));')),
    ('first removed line kept', 'one entry too few made zeros, the first of them left',
     entries('list[before.min(left + 1)..before].fill([0; 5]);')),
    ('last removed line kept', 'one entry too few made zeros, the last of them left',
     entries('list[left..left.max(before.saturating_sub(1))].fill([0; 5]);')),
    ('line before cleared', 'the line before the removed ones made zeros too',
     and_entries('list[left.saturating_sub(usize::from(k > 0))..before].fill([0; 5]);')),
    ('entry behind cleared', 'the entry behind the removed lines made zeros too',
     and_entries('list[left..].iter_mut().take(before - left + usize::from(k > 0)).for_each(|e| *e = [0; 5]);')),
    ('entries behind cleared', 'all entries behind the lines that stay made zeros',
     and_entries('list[left..].fill([0; 5]);')),
    ('list cleared', 'the whole list made zeros, where all pairs are taken apart',
     and_entries('if left == 0 {\n        list.fill([0; 5]);\n    }')),
    ('entries behind moved up', 'the entries behind the removed lines moved up',
     entries('list.copy_within(before.., left);')),
    ('left lines of the contracts', 'a removed line replaced by a left line of its written row',
     entries('list[left..before].iter_mut().for_each(|e| *e = [2, e[1], e[3], 0, 0]);')),
]
REPORTED = [
    ('count kept', 'the former count reported', apart((ANSWER, '    Ok(count)\n'))),
    ('pairs removed reported', 'k reported, not the new count', apart((ANSWER, '    Ok(k)\n'))),
    ('amount reported', 'the amount after it reported', apart((ANSWER, '    Ok(half.amount() as u64)\n'))),
    ('pairs to make reported', 'the pairs that can be made now reported', apart((ANSWER, '    Ok(half.make(u64::MAX))\n'))),
]
REFUSED = [
    ('never 19', 'k above the count taken for all pairs', apart((CHECK_19, '    let k = k.min(count);\n'))),
    ('19 at the count', 'k at the count refused', apart((CHECK_19, CHECK_19.replace('k > count', 'k >= count')))),
    ('19 at a count above 0', 'k at the count refused, where that is above 0',
     apart((CHECK_19, CHECK_19.replace('k > count', 'k > count || k == count && k > 0')))),
    ('19 one later', 'k one above the count let through, for all pairs',
     apart((CHECK_19, CHECK_19.replace('k > count', 'k > count + 1') + '    let k = k.min(count);\n'))),
    ('19 for the room', 'k above the list refused, and k above the count taken for all pairs',
     apart((CHECK_19, CHECK_19.replace('count', 'list.len() as u64') + '    let k = k.min(count);\n'))),
    ('19 before 18', 'k looked at before the lines', apart((CHECKS, ACCOUNT + CHECK_12 + CHECK_19 + READ))),
    ('19 before 12', 'k looked at before the length of the list',
     apart((CHECKS, '    read_account(bytes)?;\n' + CHECK_19 + READ))),
    ('19 before the reading', 'k looked at before the file is read', apart((CHECKS, CHECK_19 + READ))),
    ('18 for 19', 'the number of wrong lines given', apart((CHECK_19, CHECK_19.replace('19', '18')))),
    ('row of 19', 'refusal 19 with the count for its row',
     apart((CHECK_19, CHECK_19.replace('row: 0', 'row: count as usize')))),
    ('19, but cleared', 'the lines removed where 19 is given',
     apart((CHECK_19, CHECK_19.replace('{\n', '{\n        list[..count as usize].fill([0; 5]);\n', 1)))),
    ('18, but cleared', 'the lines removed where 18 is given', first('''\
    if read_half_paired(bytes, list, count).is_err_and(|refusal| refusal.number == 18) {
        let end = list.len().min(count as usize);
        list[end.saturating_sub(k as usize)..end].fill([0; 5]);
        return Err(Refusal { number: 18, row: 0 });
    }
''')),
    ('k of 32 bits', 'the lower half of k taken', first('    let k = k as u32 as u64;\n')),
    ('k of 16 bits', 'the lowest two bytes of k taken', first('    let k = k as u16 as u64;\n')),
    ('k of 8 bits', 'the lowest byte of k taken', first('    let k = k as u8 as u64;\n')),
    ('count of 32 bits to take apart', 'the lower half of the count taken', first('    let count = count as u32 as u64;\n')),
    ('lines to take apart not looked at', 'the lines in the list not compared', looked_at('0..0')),
    ('removed lines alone', 'the lines that stay not compared', looked_at('left..lines.len()')),
    ('lines that stay alone', 'the removed lines not compared', looked_at('0..left')),
    ('taken apart twice', 'lines that are zeros already taken for pairs', first('''\
    let mut half = HalfPaired::begun(read_account(bytes)?);
    half.make(count);
    let mut list_before = list.to_vec();
    for (entry, pair) in list_before.iter_mut().zip(&half.pairs).filter(|(e, _)| **e == [0; 5]) {
        *entry = pair_entry(pair);
    }
    if read_half_paired(bytes, &list_before, count).is_ok() {
        list.copy_from_slice(&list_before);
    }
''')),
]
TABLE = TAKEN + ENTRIES + REPORTED + REFUSED
