//! Handles as they are lent: bytes.

/// Six numbers of eight bytes, low byte first: the row's length, and of its layout
/// the columns, the Varchars, the bytes of the fixed columns, the packed flag and the
/// mark of long rows, 1 or 0 each.
pub type Handle = [u8; 48];

pub fn length(handle: &Handle) -> usize {
    numbers(handle)[0]
}

pub fn numbers(handle: &Handle) -> [usize; 6] {
    let (numbers, _) = handle.as_chunks();
    std::array::from_fn(|at| usize::from_le_bytes(numbers[at]))
}

pub fn bytes(numbers: [usize; 6]) -> Handle {
    let mut handle = [0; 48];
    for (bytes, number) in handle.chunks_exact_mut(8).zip(numbers) {
        bytes.copy_from_slice(&number.to_le_bytes());
    }
    handle
}

#[cfg(test)]
mod tests {
    use super::{bytes, length, numbers};

    #[test]
    fn there_and_back() {
        let all = [17, 3, 1, 6, 1, usize::MAX];
        assert_eq!(numbers(&bytes(all)), all);
        assert_eq!(bytes(all)[..9], [17, 0, 0, 0, 0, 0, 0, 0, 3]);
        assert_eq!(length(&bytes(all)), 17);
    }
}
