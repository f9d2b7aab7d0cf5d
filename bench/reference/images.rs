// What `llfree rebuild` and `llfree report` do, as a plain Rust program would: the image is read from
// standard input, checked, and rebuilt or reported to standard output. Texts without quotes only.
use std::io::{Read, Write};
use std::process::exit;

struct Child {
    free: u32,
    huge: bool,
    words: [u64; 8],
}

struct Image {
    frames: u32,
    children: Vec<Child>,
    trees: Vec<(u32, bool)>,
    cores: Vec<Option<(u32, u32)>>,
}

fn number(field: &str, most: u32) -> Option<u32> {
    if field.is_empty() || field.len() > 20 || !field.bytes().all(|b| b.is_ascii_digit()) {
        return None;
    }
    let value = field.parse::<u64>().ok()?;
    if value <= u64::from(most) { Some(value as u32) } else { None }
}

fn words(field: &str) -> Option<[u64; 8]> {
    if field.len() != 128 || !field.bytes().all(|b| b.is_ascii_hexdigit()) {
        return None;
    }
    let mut words = [0; 8];
    for (i, word) in words.iter_mut().enumerate() {
        *word = u64::from_str_radix(field.get(16 * i..16 * i + 16)?, 16).ok()?;
    }
    Some(words)
}

fn tree_size(children: u32, tree: u32) -> u32 {
    512 * 8.min(children - 8 * tree)
}

fn five(line: &str) -> Option<[&str; 5]> {
    let mut fields = line.split(',');
    let five = [fields.next()?, fields.next()?, fields.next()?, fields.next()?, fields.next()?];
    if fields.next().is_none() { Some(five) } else { None }
}

fn header(line: &str) -> Option<(u32, u32, u32)> {
    let [word, version, children, cores, frames] = five(line)?;
    if word != "llfree" {
        return None;
    }
    let children = number(children, 4096).filter(|n| *n > 0)?;
    let cores = number(cores, 64).filter(|n| *n > 0)?;
    let frames = match version {
        "1" if frames.is_empty() => 512 * children,
        "2" => number(frames, 512 * children).filter(|n| *n > 512 * (children - 1))?,
        _ => return None,
    };
    Some((children, cores, frames))
}

fn part(line: &str, name: &str, place: u32) -> Option<[String; 3]> {
    let [word, number_field, a, b, c] = five(line)?;
    if word == name && number(number_field, place)? == place {
        Some([a.to_string(), b.to_string(), c.to_string()])
    } else {
        None
    }
}

fn child(image: &Image, line: &str, place: u32) -> Option<Child> {
    let [free, huge, digits] = part(line, "child", place)?;
    let child = Child { free: number(&free, 512)?, huge: number(&huge, 1)? == 1, words: words(&digits)? };
    let inside = 512.min(image.frames.saturating_sub(512 * place));
    let ends = (inside..512).all(|i| child.words[i as usize / 64] >> (i % 64) & 1 == 1);
    if inside == 512 || (!child.huge && ends) { Some(child) } else { None }
}

fn tree(line: &str, place: u32, size: u32) -> Option<(u32, bool)> {
    let [free, reserved, none] = part(line, "tree", place)?;
    if !none.is_empty() {
        return None;
    }
    Some((number(&free, size)?, number(&reserved, 1)? == 1))
}

fn core(line: &str, place: u32, children: u32) -> Option<Option<(u32, u32)>> {
    let [tree, free, none] = part(line, "core", place)?;
    if !none.is_empty() {
        return None;
    }
    if tree.is_empty() && free.is_empty() {
        return Some(None);
    }
    let tree = number(&tree, children.div_ceil(8) - 1)?;
    Some(Some((tree, number(&free, tree_size(children, tree))?)))
}

fn read(text: &str) -> Result<Image, usize> {
    let mut lines = text.lines().filter(|line| !line.is_empty());
    let (children, cores, frames) = lines.next().and_then(header).ok_or(1usize)?;
    let mut image = Image { frames, children: Vec::new(), trees: Vec::new(), cores: Vec::new() };
    let mut line = 1;
    let mut next = || {
        line += 1;
        (line, lines.next())
    };
    for place in 0..children {
        let (number, record) = next();
        let made = record.and_then(|record| child(&image, record, place)).ok_or(number)?;
        image.children.push(made);
    }
    for place in 0..children.div_ceil(8) {
        let (number, record) = next();
        let size = tree_size(children, place);
        image.trees.push(record.and_then(|record| tree(record, place, size)).ok_or(number)?);
    }
    for place in 0..cores {
        let (number, record) = next();
        image.cores.push(record.and_then(|record| core(record, place, children)).ok_or(number)?);
    }
    let (number, record) = next();
    if record.is_some() { Err(number) } else { Ok(image) }
}

fn rebuild(image: &mut Image) {
    for child in &mut image.children {
        if child.huge {
            child.words = [0; 8];
            child.free = 0;
        } else {
            child.free = 512 - child.words.iter().map(|word| word.count_ones()).sum::<u32>();
        }
    }
    for (place, tree) in image.trees.iter_mut().enumerate() {
        let children = image.children.iter().skip(8 * place).take(8);
        *tree = (children.map(|child| child.free).sum(), false);
    }
    image.cores.iter_mut().for_each(|core| *core = None);
}

fn write(image: &Image) -> std::io::Result<Vec<u8>> {
    let mut text = Vec::new();
    let (children, cores) = (image.children.len(), image.cores.len());
    if image.frames as usize == 512 * children {
        writeln!(text, "llfree,1,{children},{cores},")?;
    } else {
        writeln!(text, "llfree,2,{children},{cores},{}", image.frames)?;
    }
    for (place, child) in image.children.iter().enumerate() {
        write!(text, "child,{place},{},{},", child.free, u32::from(child.huge))?;
        for word in child.words {
            write!(text, "{word:016x}")?;
        }
        writeln!(text)?;
    }
    for (place, tree) in image.trees.iter().enumerate() {
        writeln!(text, "tree,{place},{},{},", tree.0, u32::from(tree.1))?;
    }
    for (place, core) in image.cores.iter().enumerate() {
        match core {
            Some((tree, free)) => writeln!(text, "core,{place},{tree},{free},")?,
            None => writeln!(text, "core,{place},,,")?,
        }
    }
    Ok(text)
}

// held and free frames, and the clear blocks of ten orders
fn numbers(child: &Child) -> [u32; 12] {
    let mut clear = [false; 512];
    for (i, clear) in clear.iter_mut().enumerate() {
        *clear = !child.huge && child.words[i / 64] >> (i % 64) & 1 == 0;
    }
    let mut numbers = [0; 12];
    let mut blocks = 512;
    for order in 0..10 {
        numbers[2 + order] = clear[..blocks].iter().filter(|clear| **clear).count() as u32;
        blocks /= 2;
        for block in 0..blocks {
            clear[block] = clear[2 * block] && clear[2 * block + 1];
        }
    }
    numbers[1] = numbers[2];
    numbers[0] = 512 - numbers[1];
    numbers
}

fn report(image: &Image) -> std::io::Result<Vec<u8>> {
    let mut text = Vec::new();
    let mut all = [0; 12];
    for (place, children) in image.children.chunks(8).enumerate() {
        let mut sum = [0; 12];
        for child in children {
            for (sum, number) in sum.iter_mut().zip(numbers(child)) {
                *sum += number;
            }
        }
        write!(text, "tree,{place}")?;
        for (all, number) in all.iter_mut().zip(sum) {
            *all += number;
            write!(text, ",{number}")?;
        }
        writeln!(text)?;
    }
    write!(text, "all,")?;
    for number in all {
        write!(text, ",{number}")?;
    }
    writeln!(text)?;
    Ok(text)
}

fn main() -> std::io::Result<()> {
    let mut text = String::new();
    std::io::stdin().read_to_string(&mut text)?;
    let mut image = match read(&text) {
        Ok(image) => image,
        Err(line) => {
            eprintln!("llfree: bad image at record {line}");
            exit(1);
        }
    };
    let out = match std::env::args().nth(1).as_deref() {
        Some("rebuild") => {
            rebuild(&mut image);
            write(&image)?
        }
        Some("report") => report(&image)?,
        _ => exit(2),
    };
    std::io::stdout().write_all(&out)
}
