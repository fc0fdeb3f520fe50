//! What the tests and the benchmark of the library share: numbers that look random, and texts. Nothing here needs a
//! package.

/// Numbers that look random (xorshift).
pub struct Random(pub u64);

impl Random {
    pub fn next_number(&mut self) -> u64 {
        self.0 ^= self.0 << 13;
        self.0 ^= self.0 >> 7;
        self.0 ^= self.0 << 17;
        self.0
    }

    pub fn below(&mut self, n: usize) -> usize {
        (self.next_number() >> 11) as usize % n
    }
}

pub const ASCII: &[&str] = &["Platform 3, unit T41, arrival 06:12:30, departure 06:14:00; 1,234 other rows follow: alpha beta gamma, depot west, track 42. "];
pub const ACCENTED: &[&str] = &[
    "Voix ambiguë d'un cœur qui, au zéphyr, préfère les jattes de kiwis. Dès Noël, où un zéphyr haï me vêt de glaçons würmiens, je dîne d'exquis rôtis. ",
    "Příliš žluťoučký kůň úpěl ďábelské ódy. Nechť již hříšné saxofony ďáblů rozezvučí síň úděsnými tóny waltzu, tanga a quickstepu. ",
];
/// Cyrillic, with its spaces and punctuation.
pub const TWO_BYTE: &[&str] = &[
    "Съешь же ещё этих мягких французских булок, да выпей чаю. Поезд прибывает на третий путь. ",
];
pub const THREE_BYTE: &[&str] = &[
    "いろはにほへとちりぬるをわかよたれそつねならむうゐのおくやまけふこえてあさきゆめみしゑひもせす日本語の文章を確認するための例文です",
    "საქართველოსრკინიგზისსადგურებისადამატარებლებისგანრიგისნიმუშიარისესტექსტი",
];

pub const FOUR_BYTE: &[&str] = &[
    "𐌰𐍄𐍄𐌰𐌿𐌽𐍃𐌰𐍂𐌸𐌿𐌹𐌽𐌷𐌹𐌼𐌹𐌽𐌰𐌼𐍅𐌴𐌹𐌷𐌽𐌰𐌹𐌽𐌰𐌼𐍉𐌸𐌴𐌹𐌽𐌵𐌹𐌼𐌰𐌹𐌸𐌹𐌿𐌳𐌹𐌽𐌰𐍃𐍃𐌿𐍃𐌸𐌴𐌹𐌽𐍃",
    "🚂🚃🚄🚅🚆🚇🚈🚉🚊🚝🚞🚟🚠🚡🚲🛤🛫🛬🕐🕑🕒🕓🕔🕕🕖🕗🕘🕙🕚🕛",
];

/// A text of exactly `length` bytes out of one of the sources, from a random character on. Where a character does not
/// fit, letters fill the end.
pub fn text(sources: &[&str], length: usize, random: &mut Random) -> Vec<u8> {
    let source: Vec<char> = sources[random.below(sources.len())].chars().collect();
    let mut at = random.below(source.len());
    let mut out = Vec::with_capacity(length);
    loop {
        let mut bytes = [0; 4];
        let next = source[at % source.len()].encode_utf8(&mut bytes).as_bytes();
        if out.len() + next.len() > length {
            break;
        }
        out.extend_from_slice(next);
        at += 1;
    }
    out.resize(length, b'x');
    out
}
