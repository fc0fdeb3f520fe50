//! Which kinds of ranges a value list has.

use cases::value::{Record, ValueList};

/// Ranges with numbers of two bytes, of four, of both, or none; of the records before
/// the first bad one.
pub fn list_sort(list: &ValueList) -> &'static str {
    let (mut narrow, mut wide) = (false, false);
    let mut rest = &list.bytes[..];
    while !rest.is_empty()
        && let Some((_, length)) = Record::read(rest)
    {
        narrow |= matches!(rest[0], 8 | 9 | 12);
        wide |= matches!(rest[0], 17..=19);
        rest = &rest[length..];
    }
    match (narrow, wide) {
        (false, false) => "list without ranges",
        (true, false) => "list with kinds 8, 9, 12",
        (false, true) => "list with kinds 17 to 19",
        (true, true) => "list with kinds 8, 9, 12 and 17 to 19",
    }
}

#[cfg(test)]
mod tests {
    use super::list_sort;
    use cases::value::ValueList;

    #[test]
    fn sorts() {
        let sort = |bytes: &[u8]| {
            let bytes = bytes.to_vec();
            list_sort(&ValueList {
                bytes,
                text: vec![],
            })
        };
        assert_eq!(sort(&[0, 7, 1]), "list without ranges");
        assert_eq!(sort(&[0, 9, 0, 0, 0, 0]), "list with kinds 8, 9, 12");
        let wide = [19, 0, 0, 0, 0, 0, 0, 0, 0];
        assert_eq!(sort(&wide), "list with kinds 17 to 19");
        assert_eq!(sort(&wide[..8]), "list without ranges");
        let both = [&wide[..], &[8, 0, 0, 0, 0]].concat();
        assert_eq!(sort(&both), "list with kinds 8, 9, 12 and 17 to 19");
    }
}
