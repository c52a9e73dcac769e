use fairleadow::{version, Chart, Image, Refusal, VERSION};

fn main() -> Result<(), Refusal> {
    assert_eq!(version(), VERSION);
    let chart = Chart::parse("00010001000000000000FE\n02010002000000000005F6\n01010000000000000000FE\n")?;
    let image = Image::of(&chart)?;
    image.text().iter().for_each(|character| print!("{}", *character as char));
    Ok(())
}
