//! Relocatable objects as the compiler writes them: ELF, 64 bits, little-endian.

/// A section, with what its relocations point at.
pub struct Section {
    pub name: String,
    pub bytes: Vec<u8>,
    /// In the program's memory when it runs.
    pub is_allocated: bool,
    pub is_writable: bool,
    pub is_code: bool,
    /// The size of an entry, where the linker takes the section's entries one by one: it leaves
    /// out those that nothing points at, and makes one of those that are alike.
    pub entry_size: Option<usize>,
    /// The symbols that relocations of this section name, by their numbers.
    pub named: Vec<usize>,
}

/// A name for a place in a section.
pub struct Symbol {
    pub name: String,
    /// `None` where the object does not define it.
    pub section: Option<usize>,
    pub offset: usize,
    /// It stands for the section and for no place in it.
    pub is_section: bool,
}

pub struct Object {
    pub sections: Vec<Section>,
    pub symbols: Vec<Symbol>,
}

// The names of the format's own document.
const ET_REL: u64 = 1;
const SHT_SYMTAB: u64 = 2;
const SHT_RELA: u64 = 4;
const SHT_NOBITS: u64 = 8;
const SHF_WRITE: u64 = 1;
const SHF_ALLOC: u64 = 2;
const SHF_EXECINSTR: u64 = 4;
const SHF_MERGE: u64 = 16;
const SHF_STRINGS: u64 = 32;
const STT_SECTION: u64 = 3;

/// The whole number in the `length` bytes from `at` on.
fn number(bytes: &[u8], at: usize, length: usize) -> Result<u64, String> {
    let found = part(bytes, at as u64, length as u64)?;
    Ok(found
        .iter()
        .rev()
        .fold(0, |n, byte| n << 8 | u64::from(*byte)))
}

fn part(bytes: &[u8], from: u64, length: u64) -> Result<&[u8], String> {
    let end = from.saturating_add(length);
    let found = usize::try_from(from)
        .ok()
        .zip(usize::try_from(end).ok())
        .and_then(|(from, end)| bytes.get(from..end));
    found.ok_or_else(|| format!("the object ends before byte {end}"))
}

/// The name at `at` in a table of names, each of which ends with a zero.
fn name(names: &[u8], at: u64) -> Result<String, String> {
    let from = part(names, at, names.len() as u64 - at.min(names.len() as u64))?;
    let name = from.split(|byte| *byte == 0).next().unwrap_or_default();
    Ok(String::from_utf8_lossy(name).into_owned())
}

/// The fields of a section's header that are used.
struct Header {
    name: u64,
    kind: u64,
    flags: u64,
    offset: u64,
    size: u64,
    /// Another section that belongs to this one: of symbols the table of their names.
    link: u64,
    /// Of relocations the section that they change.
    info: u64,
    entry_size: u64,
}

impl Header {
    fn read(bytes: &[u8], at: usize) -> Result<Header, String> {
        Ok(Header {
            name: number(bytes, at, 4)?,
            kind: number(bytes, at + 4, 4)?,
            flags: number(bytes, at + 8, 8)?,
            offset: number(bytes, at + 24, 8)?,
            size: number(bytes, at + 32, 8)?,
            link: number(bytes, at + 40, 4)?,
            info: number(bytes, at + 44, 4)?,
            entry_size: number(bytes, at + 56, 8)?,
        })
    }

    fn has(&self, flag: u64) -> bool {
        self.flags & flag != 0
    }

    fn bytes<'a>(&self, object: &'a [u8]) -> Result<&'a [u8], String> {
        match self.kind {
            SHT_NOBITS => Ok(&[]),
            _ => part(object, self.offset, self.size),
        }
    }
}

impl Object {
    pub fn read(bytes: &[u8]) -> Result<Object, String> {
        let headers = headers(bytes)?;
        let names = number(bytes, 62, 2)? as usize;
        let names = headers.get(names).ok_or("no names of sections")?;
        let names = names.bytes(bytes)?;
        let mut sections = Vec::new();
        for header in &headers {
            sections.push(section(header, bytes, names)?);
        }
        for header in headers.iter().filter(|header| header.kind == SHT_RELA) {
            let changed = sections.get_mut(header.info as usize);
            let changed = changed.ok_or("relocations of no section")?;
            changed.named.extend(named(header.bytes(bytes)?)?);
        }
        let mut symbols = Vec::new();
        for header in headers.iter().filter(|header| header.kind == SHT_SYMTAB) {
            let names = headers.get(header.link as usize);
            let names = names.ok_or("no names of symbols")?.bytes(bytes)?;
            for symbol in header.bytes(bytes)?.chunks(24) {
                symbols.push(symbol_of(symbol, names, sections.len())?);
            }
        }
        Ok(Object { sections, symbols })
    }
}

fn headers(bytes: &[u8]) -> Result<Vec<Header>, String> {
    let is_elf = bytes.starts_with(b"\x7fELF\x02\x01");
    if !is_elf || number(bytes, 16, 2)? != ET_REL {
        return Err("no relocatable ELF object of 64 bits, little-endian".to_string());
    }
    let from = number(bytes, 40, 8)? as usize;
    let size = number(bytes, 58, 2)? as usize;
    let count = number(bytes, 60, 2)? as usize;
    let at = |index: usize| from.saturating_add(index * size);
    (0..count)
        .map(|index| Header::read(bytes, at(index)))
        .collect()
}

fn section(header: &Header, bytes: &[u8], names: &[u8]) -> Result<Section, String> {
    let by_entry = header.has(SHF_MERGE) && !header.has(SHF_STRINGS) && header.entry_size > 0;
    Ok(Section {
        name: name(names, header.name)?,
        bytes: header.bytes(bytes)?.to_vec(),
        is_allocated: header.has(SHF_ALLOC),
        // Memory that has no bytes in the file is there to be written.
        is_writable: header.has(SHF_WRITE) || header.kind == SHT_NOBITS,
        is_code: header.has(SHF_EXECINSTR),
        entry_size: by_entry.then_some(header.entry_size as usize),
        named: Vec::new(),
    })
}

/// The symbols that relocations name.
fn named(relocations: &[u8]) -> Result<Vec<usize>, String> {
    let symbol = |relocation| Ok((number(relocation, 8, 8)? >> 32) as usize);
    relocations.chunks(24).map(symbol).collect()
}

fn symbol_of(symbol: &[u8], names: &[u8], sections: usize) -> Result<Symbol, String> {
    let section = number(symbol, 6, 2)? as usize;
    Ok(Symbol {
        name: name(names, number(symbol, 0, 4)?)?,
        section: (1..sections).contains(&section).then_some(section),
        offset: number(symbol, 8, 8)? as usize,
        is_section: number(symbol, 4, 1)? & 15 == STT_SECTION,
    })
}

#[cfg(test)]
mod tests {
    use super::Object;

    #[test]
    fn what_is_no_object_is_told() {
        let mut header = b"\x7fELF\x02\x01".to_vec();
        header.resize(64, 0);
        header[16] = 1;
        let cut = header[..40].to_vec();
        let mut far = header.clone();
        far[40..48].fill(0xff);
        far[58] = 64;
        far[60] = 3;
        for bytes in [Vec::new(), b"!<arch>\n".to_vec(), cut, header, far] {
            assert!(Object::read(&bytes).is_err(), "{bytes:?}");
        }
    }
}
