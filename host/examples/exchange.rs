// A shop sends its unit table to another as a file, and a byte is damaged on the way: what is refused, what salvaged.
use demsharin::{Factor, Prefix, Quantity, Refusal, Row, Table, salvage};

/// The shop's units, defined by those above them, in the order of their rows.
const NAMES: [&str; 7] = ["metre", "radian", "inch", "foot", "degree", "arcminute", "mil"];
const METRE: u32 = 0;
const RADIAN: u32 = 1;
const INCH: u32 = 2;
const DEGREE: u32 = 4;

/// Ranks are the places of the names in their order.
fn rows() -> Vec<Row> {
    let mut sorted = NAMES;
    sorted.sort();
    let rank = |name: &str| sorted.binary_search(&name).expect("one of the names") as u16;
    let of = |factor, row| Some((factor, vec![Factor::of(row)]));
    let mil = Some((25.4, vec![Factor::of(METRE).under(Prefix::Metric(-6))]));
    let degree = std::f64::consts::PI / 180.0;
    let units = [None, None, of(0.0254, METRE), of(12.0, INCH), of(degree, RADIAN), of(1.0 / 60.0, DEGREE), mil];
    let row = |(name, unit): (&&str, Option<(f64, Vec<Factor>)>)| match unit {
        None => Row::base(rank(name)),
        Some((factor, definition)) => Row::derived(rank(name), factor, definition),
    };
    NAMES.iter().zip(units).map(row).collect()
}

fn shown(file: &[u8]) -> String {
    file.iter().map(|byte| format!("{byte:02x}")).collect::<Vec<_>>().join(" ")
}

/// What the other shop makes of the bytes that arrived.
fn received(what: &str, file: &[u8], rows: usize) {
    match Table::from_file(file) {
        Ok(table) => println!("{what}: read, {} rows", table.rows().len()),
        Err(refusal) => {
            let left = salvage(file);
            println!("{what}: {refusal}; {} of {rows} rows kept, lost from byte {} on", left.kept, left.byte);
            println!("  kept {}", NAMES[..left.kept].join(", "));
            println!("  lost {}", NAMES[left.kept..].join(", "));
        }
    }
}

fn main() -> Result<(), Refusal> {
    let table = Table::new(&rows());
    let file = table.to_file()?;
    println!("{} rows in {} bytes: {}", NAMES.len(), file.len(), shown(&file));
    received("as it was sent", &file, NAMES.len());
    assert_eq!(Table::from_file(&file)?, table);

    // The rows above degree have a file of the same bytes but for the count, so degree's row begins at its end.
    let degree = Table::new(&rows()[..DEGREE as usize]).to_file()?.len();
    let damages = [
        ("the kind of degree's row 1 -> 3", degree + 1, 0x02),
        ("the sign of degree's factor", degree + 9, 0x80),
        ("the count 7 -> 6", 0, 0x01),
    ];
    for (what, at, bits) in damages {
        let mut damaged = file.clone();
        damaged[at] ^= bits;
        received(&format!("{what} (byte {at})"), &damaged, NAMES.len());
    }

    // What is kept is a table of its own: lengths still convert.
    let mut damaged = file.clone();
    damaged[degree + 1] ^= 0x02;
    let kept = salvage(&damaged).table;
    let foot = Quantity::new(2.5, Factor::of(3));
    println!("2.5 foot by the rows kept: {} metre", kept.convert_to(&foot, &Factor::of(METRE).into())?.value);
    println!("the same in the whole table: {} metre", table.convert_to(&foot, &Factor::of(METRE).into())?.value);
    Ok(())
}
