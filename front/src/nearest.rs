//! Names that may be meant by one that isn't known.

/// How many letters of a name, and how many names, are compared.
const MOST_LETTERS: usize = 64;
const MOST_NAMES: usize = 20_000;

/// The name among these that differs least from this one, if one may be meant by it.
pub fn nearest<'a>(name: &[u8], known: impl Iterator<Item = &'a [u8]>) -> Option<&'a [u8]> {
    let compared = known.take(MOST_NAMES).filter_map(|known| Some((differing(name, known)?, known)));
    compared.min().map(|(_, known)| known)
}

/// Whether two names may be one but for the spelling, and in how many letters they differ.
fn differing(left: &[u8], right: &[u8]) -> Option<usize> {
    let longest = left.len().max(right.len());
    let most = if longest < 6 { 1 } else { 2 };
    if longest > MOST_LETTERS || longest <= 2 || left.len().abs_diff(right.len()) > most {
        return None;
    }
    Some(distance(&left.to_ascii_lowercase(), &right.to_ascii_lowercase())).filter(|differing| *differing <= most)
}

/// How many letters are to be put in, taken out, exchanged for others, or exchanged with the next one to make one word another.
pub fn distance(left: &[u8], right: &[u8]) -> usize {
    let (mut above, mut row): (Vec<usize>, Vec<usize>) = (Vec::new(), (0..=right.len()).collect());
    for (index, letter) in left.iter().take(MOST_LETTERS).enumerate() {
        let mut next = vec![index + 1];
        for (at, other) in right.iter().enumerate() {
            let exchanged = row[at] + usize::from(letter != other);
            let mut least = exchanged.min(row[at + 1] + 1).min(next[at] + 1);
            if index > 0 && at > 0 && left[index - 1] == *other && right[at - 1] == *letter {
                least = least.min(above[at - 1] + 1);
            }
            next.push(least);
        }
        above = std::mem::replace(&mut row, next);
    }
    row[right.len()] + left.len().saturating_sub(MOST_LETTERS)
}

#[cfg(test)]
mod tests {
    use super::*;

    #[test]
    fn the_nearest_name_is_found() {
        let known: [&[u8]; 4] = [b"smith2010", b"Knuth", b"ab", b"smith1999"];
        let found = |name: &[u8]| nearest(name, known.into_iter());
        assert_eq!(found(b"smith210"), Some(known[0]));
        assert_eq!([found(b"kmuth"), found(b"Kuntz")], [Some(known[1]), None]);
        assert_eq!([found(b"ax"), found(b"jones"), found(b"")], [None; 3]);
    }

    #[test]
    fn two_neighbours_may_change_places() {
        let distances = [("tilte", "title"), ("jounral", "journal"), ("", "ab"), ("abc", "ca"), ("mics", "misc")];
        assert_eq!(distances.map(|(left, right)| distance(left.as_bytes(), right.as_bytes())), [1, 1, 2, 3, 1]);
    }

    #[test]
    fn long_names_are_passed_over() {
        let (long, other) = ([b'a'; 100], [b'a'; 99]);
        assert_eq!(nearest(&long, [&other[..]].into_iter()), None);
    }
}
