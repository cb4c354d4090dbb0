//! Smaller inputs, for the search for the shortest that fails, and their printed form.

/// Ranges up to this size are tried at every place, longer ones only side by side.
const SMALL: usize = 8;

/// `items` without some of them: ranges of whole `unit`s, from all of them down to one.
pub fn shorter<T: Clone>(items: &[T], unit: usize) -> impl Iterator<Item = Vec<T>> + '_ {
    let units = items.len() / unit;
    let large = std::iter::successors(Some(units), |size| Some(size / 2)).take_while(|size| *size > SMALL);
    let sizes = large.chain((1..=SMALL.min(units)).rev());
    sizes.flat_map(move |size| {
        let step = if size <= SMALL { 1 } else { size };
        (0..=units - size).step_by(step).map(move |start| {
            let end = (start + size) * unit;
            [&items[..start * unit], &items[end..]].concat()
        })
    })
}

/// `bytes` all 0, with one of them lowered, or with one of its bits cleared.
pub fn lower_bytes(bytes: &[u8]) -> impl Iterator<Item = Vec<u8>> + '_ {
    let each = (0..bytes.len())
        .flat_map(move |place| lower_byte(bytes[place]).map(move |value| replaced(bytes, place, value)));
    all_zero(bytes).into_iter().chain(each)
}

fn lower_byte(byte: u8) -> impl Iterator<Item = u8> {
    let cleared = (0..8).map(move |bit| byte & !(1 << bit)).filter(move |low| *low < byte);
    lower(u64::from(byte)).map(|low| low as u8).chain(cleared)
}

/// `words` all 0, or with one of them lowered.
pub fn lower_words(words: &[u32]) -> impl Iterator<Item = Vec<u32>> + '_ {
    let each = (0..words.len())
        .flat_map(move |place| lower(u64::from(words[place])).map(move |value| replaced(words, place, value as u32)));
    all_zero(words).into_iter().chain(each)
}

/// `sheet` with a count one lower and a name less behind it, or with one byte lowered and the bytes of
/// a field dropped elsewhere: what the two searches above cannot do in one step.
pub fn fewer_fields(sheet: &[u8]) -> impl Iterator<Item = Vec<u8>> + '_ {
    let counts = (0..sheet.len().saturating_sub(4)).filter(move |place| sheet[*place] > 1);
    let names = counts.map(move |place| without(&replaced(sheet, place, sheet[place] - 1), place + 1, 4));
    let places = if sheet.len() <= FEW_BYTES { 0..sheet.len() } else { 0..0 };
    let fields = places.flat_map(move |place| {
        let lowered = lower_byte(sheet[place]).map(move |value| replaced(sheet, place, value));
        lowered.flat_map(move |sheet| {
            let starts = place + 1..sheet.len();
            let ranges = starts.flat_map(|start| [5, 2, 1].map(|len| (start, len)));
            ranges.map(move |(start, len)| without(&sheet, start, len)).collect::<Vec<_>>()
        })
    });
    names.chain(fields)
}

/// The longest sheet in which bytes are lowered and dropped at once.
const FEW_BYTES: usize = 40;

fn without(bytes: &[u8], start: usize, len: usize) -> Vec<u8> {
    let end = (start + len).min(bytes.len());
    [&bytes[..start], &bytes[end..]].concat()
}

fn all_zero<T: Clone + Default + PartialEq>(items: &[T]) -> Option<Vec<T>> {
    let zero = vec![T::default(); items.len()];
    (zero != items).then_some(zero)
}

fn replaced<T: Clone>(items: &[T], place: usize, value: T) -> Vec<T> {
    let mut items = items.to_vec();
    items[place] = value;
    items
}

/// Numbers below `number`: 0, its half, and the next lower one.
pub fn lower(number: u64) -> impl Iterator<Item = u64> {
    [Some(0), Some(number / 2), number.checked_sub(1)].into_iter().flatten().filter(move |low| *low < number)
}

/// `lower`, of a length or an offset.
pub fn lower_size(size: usize) -> impl Iterator<Item = usize> {
    lower(size as u64).map(|low| low as usize)
}

/// Bytes as a document shows them.
pub fn hex(bytes: &[u8]) -> String {
    let digits: Vec<String> = bytes.iter().map(|byte| format!("{byte:02x}")).collect();
    digits.join(" ")
}

/// Words in hexadecimal, `per_line` in a line; of lines that repeat, the first and their number.
pub fn hex_words(words: &[u32], per_line: usize) -> String {
    let mut shown = Vec::new();
    let mut lines = words.chunks(per_line).peekable();
    while let Some(line) = lines.next() {
        let mut times = 1;
        while lines.next_if_eq(&line).is_some() {
            times += 1;
        }
        let digits: String = line.iter().map(|word| format!(" {word:x}")).collect();
        shown.push(if times == 1 { format!("\n  {digits}") } else { format!("\n  {digits}   ({times} such lines)") });
    }
    shown.concat()
}
