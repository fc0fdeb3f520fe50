//! A day of platform occupations: a table of 1,000 rows, built, edited, scanned and printed.
use rook_row::{
    Builder, DataType, Date, Editor, Error, Reader, RowBuf, Schema, Time, Timestamp, Value,
};

const UNITS: [&str; 5] = ["ET 41", "ET 42", "VT 628", "RS 1", "Wendezug Süd"];
const SECOND: i64 = 1_000_000;

fn schema() -> Result<Schema, Error> {
    Schema::new([
        ("platform", DataType::Varchar(4)),
        ("unit", DataType::Varchar(16)),
        ("arrival", DataType::Timestamp),
        ("departure", DataType::Timestamp),
        ("cars", DataType::SmallInt),
        ("boarding", DataType::Bool),
    ])
}

/// So many occupations, one every 80 seconds; one in ten ends here and has no departure.
fn build(schema: &Schema, count: i64) -> Result<Vec<RowBuf>, Error> {
    let midnight = Date::from_ymd(2026, 11, 16).map(|day| Timestamp::new(day, Time::MIN));
    let midnight = midnight.map_or(0, Timestamp::micros);
    let mut builder = Builder::new(schema);
    (0..count)
        .map(|n| {
            let platform = format!("{}{}", n * 7 % 12 + 1, if n % 5 == 0 { "a" } else { "" });
            let arrival = Timestamp::from_micros(midnight + n * 80 * SECOND);
            let stop = Timestamp::from_micros(arrival.micros() + (60 + n % 7 * 30) * SECOND);
            let departure = (n % 10 != 9).then_some(stop);
            let row = builder.build(&[
                platform.into(),
                UNITS[n as usize % UNITS.len()].into(),
                arrival.into(),
                departure.into(),
                (2 + n as i16 % 5).into(),
                departure.is_some().into(),
            ])?;
            Ok(row.to_owned())
        })
        .collect()
}

/// Moves the long sets from platform 1 to platform 12b; hands back how many.
fn move_long_sets(schema: &Schema, rows: &mut [RowBuf]) -> Result<usize, Error> {
    let mut reader = Reader::new(schema, &["platform", "cars"])?;
    let mut editor = Editor::new(schema);
    let mut moved = 0;
    for row in rows {
        let columns = reader.read(&*row)?;
        if columns.get::<&str>("platform")? == "1" && columns.get::<i16>("cars")? > 4 {
            editor.open(row.as_row());
            editor.set("platform", "12b")?;
            *row = editor.row().to_owned();
            moved += 1;
        }
    }
    Ok(moved)
}

/// The cars that stood at a platform, and the longest stop there.
fn scan(schema: &Schema, rows: &[RowBuf], platform: &str) -> Result<(i32, Time), Error> {
    let mut reader = Reader::new(schema, &["platform", "arrival", "departure", "cars"])?;
    let (mut cars, mut longest) = (0, Time::MIN);
    for row in rows {
        let columns = reader.read(row)?;
        if columns.get::<&str>(0)? != platform {
            continue;
        }
        cars += i32::from(columns.get::<i16>(3)?);
        if let Some(departure) = columns.get::<Option<Timestamp>>(2)? {
            let arrival: Timestamp = columns.get(1)?;
            longest = longest.max(Time::from_micros(departure.micros() - arrival.micros()));
        }
    }
    Ok((cars, longest))
}

/// What a value is printed as, and how many characters that is: those of a text were counted by the read, and all else
/// is ASCII.
fn field((value, width): (Value, usize)) -> (String, usize) {
    let field = value.to_string();
    let width = match value {
        Value::Text(_) => width,
        _ => field.len(),
    };
    (field, width)
}

/// Prints rows in boxes that are as wide as their widest field.
fn print(schema: &Schema, rows: &[&RowBuf]) -> Result<(), Error> {
    let mut table = Vec::new();
    for row in rows {
        let values = row.read_with_widths(schema)?;
        table.push(values.into_iter().map(field).collect::<Vec<_>>());
    }
    for row in &table {
        let boxes = row.iter().enumerate().map(|(column, (field, width))| {
            let widest = table.iter().map(|row| row[column].1).max();
            let blanks = " ".repeat(widest.unwrap_or(0) - width);
            format!("{field}{blanks}")
        });
        println!("  {} |", boxes.collect::<Vec<_>>().join(" | "));
    }
    Ok(())
}

fn main() -> Result<(), Error> {
    let schema = schema()?;
    for column in schema.columns() {
        println!("{:<10}{}", column.name().unwrap_or(""), column.data_type());
    }

    let mut rows = build(&schema, 1_000)?;
    let bytes: usize = rows.iter().map(|row| row.as_bytes().len()).sum();
    println!("{} rows, {bytes} bytes", rows.len());

    let moved = move_long_sets(&schema, &mut rows)?;
    println!("{moved} long sets moved from platform 1 to 12b");

    for platform in ["1", "12b"] {
        let (cars, longest) = scan(&schema, &rows, platform)?;
        println!("platform {platform}: {cars} cars, longest stop {longest}");
    }

    let of_12b = |row: &&RowBuf| row.get(&schema, "platform") == Ok("12b");
    print(
        &schema,
        &rows.iter().filter(of_12b).take(3).collect::<Vec<_>>(),
    )?;
    if let Err(refused) = rows[0].set(&schema, "platform", "depot west") {
        println!("{refused}");
    }
    Ok(())
}
