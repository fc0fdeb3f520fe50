//! Random schemas, values and edits, in rows of both sorts: what goes in comes out, and there is always room.
use rook_row::{
    Bits, Builder, DataType, Date, Editor, Numeric, Reader, RowBuf, RowMut, Schema, Sort, Time,
    Timestamp, Value,
};

/// Numbers that look random (xorshift).
struct Random(u64);

impl Random {
    fn bits(&mut self) -> u64 {
        self.0 ^= self.0 << 13;
        self.0 ^= self.0 >> 7;
        self.0 ^= self.0 << 17;
        self.0
    }

    fn below(&mut self, n: u64) -> u64 {
        (self.bits() >> 11) % n
    }

    /// A text of at most so many characters.
    fn characters(&mut self, most: u16) -> String {
        let letters = ['a', 'Z', ' ', 'é', '東', '😀'];
        (0..self.below(most as u64 + 1))
            .map(|_| letters[self.below(6) as usize])
            .collect()
    }

    /// A text of at most so many bytes.
    fn text(&mut self, most: u16) -> String {
        let mut text = self.characters(most);
        while text.len() > most as usize {
            text.pop();
        }
        text
    }

    fn data_type(&mut self) -> DataType {
        let n = [0, 1, 7, 8, 9, 60, 300][self.below(7) as usize];
        let precision = self.below(38) as u8 + 1;
        let scale = self.below(precision as u64 + 1) as u8;
        match self.below(16) {
            0 => DataType::SmallInt,
            1 => DataType::Int,
            2 => DataType::BigInt,
            3 => DataType::Real,
            4 => DataType::DoublePrecision,
            5 => DataType::Numeric { precision, scale },
            6 => DataType::Decimal { precision, scale },
            7 => DataType::Bool,
            8 => DataType::Char(n),
            9 => DataType::Character(n),
            10 => DataType::Varchar(n),
            11 => DataType::Date,
            12 => DataType::Time,
            13 => DataType::Bit(n),
            14 => DataType::VarcharChars(n),
            _ => DataType::Timestamp,
        }
    }

    /// A value as a column of this type gives it back.
    fn value(&mut self, ty: DataType) -> Value<'static> {
        let x = self.bits();
        match ty {
            DataType::SmallInt => Value::SmallInt(x as i16),
            DataType::Int => Value::Int(x as i32),
            DataType::BigInt => Value::BigInt(x as i64),
            DataType::Real => Value::Real(x as i32 as f32),
            DataType::DoublePrecision => Value::DoublePrecision(x as i64 as f64),
            DataType::Numeric { precision, scale } | DataType::Decimal { precision, scale } => {
                let wide = (x as i128) << 63 | self.bits() as i128 >> 1;
                let unscaled = wide % 10i128.pow(precision as u32);
                let unscaled = if x & 1 == 0 { unscaled } else { -unscaled };
                Numeric::new(unscaled, scale).into()
            }
            DataType::Bool => Value::Bool(x & 1 == 0),
            DataType::Char(n) | DataType::Character(n) => {
                let mut text = self.text(n);
                text += &" ".repeat(n as usize - text.len());
                text.into()
            }
            DataType::Varchar(n) => self.text(n).into(),
            DataType::VarcharChars(n) => self.characters(n).into(),
            DataType::Date => Date::from_days(self.below(3_652_059) as i32 - 719_162).into(),
            DataType::Time => Time::from_micros(self.below(86_400_000_000) as i64).into(),
            DataType::Bit(n) => {
                let bytes = vec![x as u8; (n as usize).div_ceil(8)];
                Bits::new(bytes, n).expect("so many bytes").into()
            }
            _ => Timestamp::from_micros(x as i64 % 62_135_596_800_000_000).into(),
        }
    }

    fn value_or_null(&mut self, ty: DataType) -> Value<'static> {
        match self.below(4) {
            0 => Value::Null,
            _ => self.value(ty),
        }
    }
}

/// The wanted columns by a reader, in the asked order.
fn check_read(random: &mut Random, schema: &Schema, values: &[Value], row: &[u8]) {
    let count = random.below(schema.len() as u64 + 2);
    let wanted: Vec<usize> = match schema.len() {
        0 => vec![],
        n => (0..count)
            .map(|_| random.below(n as u64) as usize)
            .collect(),
    };
    let mut reader = Reader::new(schema, &wanted).unwrap();
    let columns = reader.read(row).unwrap();
    assert!(columns
        .iter()
        .eq(wanted.iter().map(|&column| values[column].borrowed())));
    assert!(columns
        .widths()
        .eq(wanted.iter().map(|&column| width(&values[column]))));
}

/// The row that is built of these values has the length, the widths and the content of this one.
fn check_built(builder: &mut Builder, schema: &Schema, values: &[Value], row: &RowBuf) {
    let (built, widths) = builder.build_with_widths(values).unwrap();
    assert_eq!(row.as_bytes().len(), built.as_bytes().len());
    assert!(widths.iter().copied().eq(values.iter().map(width)));
    assert_eq!(row.widths(schema).unwrap(), widths);
    assert_eq!(row.same_content(schema, built), Ok(true));
}

/// The code points of a text.
fn width(value: &Value) -> usize {
    match value {
        Value::Text(text) => text.chars().count(),
        _ => 0,
    }
}

#[test]
fn built_edited_and_read() {
    let mut random = Random(0x9E37_79B9_7F4A_7C15);
    for turn in 0..10_000 {
        let most = if turn % 100 == 0 { 257 } else { 12 };
        let types: Vec<_> = (0..random.below(most))
            .map(|_| random.data_type())
            .collect();
        let schema = Schema::new(&types).unwrap();
        let mut values: Vec<_> = types.iter().map(|&ty| random.value_or_null(ty)).collect();
        let (sort, other) = match turn % 3 {
            0 => (Sort::Long, Sort::Short),
            _ => (Sort::Short, Sort::Long),
        };
        let mut builder = Builder::new(schema.with_sort(sort));
        let mut row = builder.build(&values).unwrap().to_owned();
        assert_eq!(row.sort(), sort);
        assert_eq!(row.read(&schema).unwrap(), values);
        check_read(&mut random, &schema, &values, row.as_bytes());

        let mut editor = Editor::new(&schema);
        editor.open(row.as_row());
        // Up to seven edits, of which each lengthens the row by 300 characters at most.
        let mut page = vec![0xEE; row.as_bytes().len() + 7 * 4 * 300];
        let length = row.as_bytes().len();
        page[..length].copy_from_slice(row.as_bytes());
        let mut lent = RowMut::new(&mut page, length);
        for _ in 0..random.below(8).min(types.len() as u64) {
            let column = random.below(types.len() as u64) as usize;
            values[column] = random.value_or_null(types[column]);
            let value = match &values[column] {
                Value::Null => None,
                value => Some(value),
            };
            row.set(&schema, column, value).unwrap();
            lent.set(&schema, column, value).unwrap();
            editor.set(column, value).unwrap();
            assert_eq!(row.read(&schema).unwrap(), values);
            assert_eq!((lent.as_row(), editor.row()), (row.as_row(), row.as_row()));
            check_read(&mut random, &schema, &values, row.as_bytes());
        }
        assert_eq!((row.sort(), lent.sort()), (sort, sort));
        check_built(&mut builder, &schema, &values, &row);
        let twin = RowBuf::build(schema.with_sort(other), &values).unwrap();
        assert_eq!(twin.same_content(&schema, row.as_row()), Ok(true));
    }
}
