//! What docs/ says of tree files, verdicts and job counts, written again with no thought of speed. It shares no code with
//! the engine: it knows no index, no bridges and no search, and finds a term by looking at every entry of a path.

use crate::library::Job;

/// A list of a tree: its parent's number, and its entries with their marks.
#[derive(Clone)]
pub struct List {
    pub parent: usize,
    pub entries: Vec<(Vec<u8>, u32)>,
}

/// The lists of a file, or the number of the refusal.
pub fn read(file: &[u8]) -> Result<Vec<List>, u32> {
    let mut rest = file.strip_prefix(&[0x56, 0, 2, 0, 1]).ok_or(16u32)?;
    let mut lists: Vec<List> = Vec::new();
    let mut closed = false;
    while !(closed && rest.is_empty()) {
        let (tag, body, behind) = field(rest).ok_or(17u32)?;
        match tag {
            b'L' if !closed => read_list(body, &mut lists)?,
            b'E' if !closed && !lists.is_empty() => read_entry(body, &mut lists)?,
            b'Z' if !closed && !lists.is_empty() => {
                let entries: usize = lists.iter().map(|list| list.entries.len()).sum();
                let number: [u8; 4] = body.try_into().map_err(|_| 19u32)?;
                if u32::from_be_bytes(number) as usize != entries {
                    return Err(20);
                }
                closed = true;
            }
            _ => return Err(18),
        }
        rest = behind;
    }
    Ok(lists)
}

/// The first field: its tag, its body and what lies behind it; nothing where it is not whole.
fn field(bytes: &[u8]) -> Option<(u8, &[u8], &[u8])> {
    let [tag, high, low, rest @ ..] = bytes else {
        return None;
    };
    let length = 256 * *high as usize + *low as usize;
    if rest.len() < length {
        return None;
    }
    Some((*tag, &rest[..length], &rest[length..]))
}

fn read_list(body: &[u8], lists: &mut Vec<List>) -> Result<(), u32> {
    let [parent] = body else {
        return Err(19);
    };
    if lists.is_empty() && *parent != 0 {
        return Err(20);
    }
    lists.push(List {
        parent: *parent as usize,
        entries: Vec::new(),
    });
    Ok(())
}

fn read_entry(body: &[u8], lists: &mut [List]) -> Result<(), u32> {
    if body.len() < 5 || body.len() > 36 {
        return Err(19);
    }
    let term = body[4..].to_vec();
    if term.contains(&0) {
        return Err(2);
    }
    let marks = u32::from_be_bytes([body[0], body[1], body[2], body[3]]);
    if let Some(list) = lists.last_mut() {
        list.entries.push((term, marks));
    }
    Ok(())
}

/// The bytes of a tree.
pub fn write(lists: &[List]) -> Vec<u8> {
    let mut file = vec![0x56, 0, 2, 0, 1];
    let mut entries = 0u32;
    for list in lists {
        file.extend([b'L', 0, 1, list.parent as u8]);
        for (term, marks) in &list.entries {
            let length = (term.len() + 4) as u16;
            file.push(b'E');
            file.extend(length.to_be_bytes());
            file.extend(marks.to_be_bytes());
            file.extend(term);
            entries += 1;
        }
    }
    file.extend([b'Z', 0, 4]);
    file.extend(entries.to_be_bytes());
    file
}

/// The lists from the root to a list.
fn path(lists: &[List], list: usize) -> Vec<usize> {
    let mut path = vec![list];
    while path[0] != 0 {
        path.insert(0, lists[path[0]].parent);
    }
    path
}

/// Whether an index takes the lists, or the number of the refusal.
fn build(lists: &[List]) -> Result<(), usize> {
    if lists.is_empty() || lists.len() > 128 {
        return Err(4);
    }
    if (1..lists.len()).any(|v| lists[v].parent >= v) {
        return Err(5);
    }
    if (0..lists.len()).any(|v| path(lists, v).len() > 9) {
        return Err(6);
    }
    let children = |v: usize| (1..lists.len()).filter(|w| lists[*w].parent == v).count();
    if (0..lists.len()).any(|v| children(v) > 4) {
        return Err(7);
    }
    if lists.iter().map(|list| list.entries.len()).sum::<usize>() > 40_000 {
        return Err(8);
    }
    let falls = |list: &List| list.entries.windows(2).any(|two| two[1].0 < two[0].0);
    if lists.iter().any(falls) {
        return Err(9);
    }
    Ok(())
}

/// The lines of a sheet.
fn lines(sheet: &[u8]) -> Vec<&[u8]> {
    let mut lines: Vec<&[u8]> = sheet.split(|byte| *byte == 10).collect();
    if lines.last().is_some_and(|line| line.is_empty()) {
        lines.pop();
    }
    lines
}

/// A whole job: the file, then the build, then the sheet's length, then the list.
pub fn count_job(file: &[u8], sheet: &[u8], list: usize) -> Job {
    match granted(file, sheet, list) {
        Ok(job) => job,
        Err(refusal) => Job {
            refusal,
            ..Job::default()
        },
    }
}

fn granted(file: &[u8], sheet: &[u8], list: usize) -> Result<Job, usize> {
    let lists = read(file).map_err(|number| number as usize)?;
    build(&lists)?;
    if sheet.len() > 65_535 {
        return Err(22);
    }
    if list >= lists.len() {
        return Err(11);
    }
    let path = path(&lists, list);
    let mut job = Job::default();
    for line in lines(sheet) {
        job.lines += 1;
        if line.is_empty() || line.len() > 32 || line.contains(&0) {
            job.unreadable += 1;
            continue;
        }
        let marks: Vec<u32> = path
            .iter()
            .flat_map(|v| &lists[*v].entries)
            .filter(|(term, _)| term == line)
            .map(|(_, marks)| *marks)
            .collect();
        let joined = marks.iter().fold(0, |all, one| all | one);
        match (marks.is_empty(), joined & 3) {
            (true, _) => job.absent += 1,
            (false, 0) => job.offered += 1,
            (false, _) => job.withheld += 1,
        }
    }
    if job.lines > 0 {
        job.share = 100 * job.offered / job.lines;
    }
    Ok(job)
}
