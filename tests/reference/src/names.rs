//! Parties, partitions and sets of them, keys, and the words that carry names as fields.

/// Parties are 0 to 7.
pub const PARTIES: usize = 8;
/// Partitions are 0 to 63; 0 is the default.
pub const LAST_PARTITION: u32 = 63;
/// Keys are -31 to 31; 0 is the default.
pub const LAST_KEY: i32 = 31;
/// Stored keys are 0 to 62.
pub const LAST_STORED_KEY: u64 = 62;
/// An entry or a template has at most 8 fields.
pub const MOST_FIELDS: usize = 8;

/// A kind is worth this much in a field word.
const KIND: u64 = 4_294_967_296;

/// A set of partitions with a key, as a call names them: not yet known to be in range.
#[derive(Clone, Copy, Debug, PartialEq, Eq)]
pub struct Pair {
    pub set: u64,
    pub key: i32,
}

impl Pair {
    /// With a set of one partition, which is in range.
    pub fn of_one(partition: u32, key: i32) -> Pair {
        Pair {
            set: partition_bit(partition),
            key,
        }
    }
}

/// Whether a word that is a set, or is laid out like one, has this partition.
pub fn has_partition(word: u64, partition: u32) -> bool {
    word >> partition & 1 == 1
}

/// The partitions of a set, smallest first.
pub fn partitions_of(set: u64) -> impl DoubleEndedIterator<Item = u32> {
    (0..=LAST_PARTITION).filter(move |partition| has_partition(set, *partition))
}

/// The set of these partitions, which are in range.
pub fn set_of(partitions: impl IntoIterator<Item = u32>) -> u64 {
    let bits = partitions.into_iter().map(partition_bit);
    bits.fold(0, |set, bit| set | bit)
}

pub fn key_in_range(key: i32) -> bool {
    (-LAST_KEY..=LAST_KEY).contains(&key)
}

/// The co-key of a key in range.
pub fn co_key(key: i32) -> i32 {
    -key
}

/// A key in range as it is stored, 0 to 62.
pub fn stored_key(key: i32) -> u64 {
    (key + LAST_KEY) as u64
}

/// The key that is stored so, if there is one.
pub fn key_of_stored(stored: u64) -> Option<i32> {
    (stored <= LAST_STORED_KEY).then(|| stored as i32 - LAST_KEY)
}

/// The bit of a holdings word, or of a set, that stands for a partition in range.
pub fn partition_bit(partition: u32) -> u64 {
    1 << partition
}

/// The bit of a holdings word that stands for a key in range.
pub fn key_bit(key: i32) -> u64 {
    1 << stored_key(key)
}

/// A field word taken apart.
#[derive(Clone, Copy, Debug, PartialEq, Eq)]
pub enum Field {
    Message(u32),
    Partition(u32),
    Key(i32),
    Wildcard,
    /// A bound, as the next one: for messages of at least this number.
    AtLeast(u32),
    /// For messages of at most this number.
    AtMost(u32),
}

impl Field {
    /// The field that a word stands for; a bad word stands for none.
    pub fn from_word(word: u64) -> Option<Field> {
        let kind = word / KIND;
        let value = word % KIND;
        match kind {
            0 => Some(Field::Message(value as u32)),
            1 if value <= u64::from(LAST_PARTITION) => Some(Field::Partition(value as u32)),
            2 => key_of_stored(value).map(Field::Key),
            3 if value == 0 => Some(Field::Wildcard),
            4 => Some(Field::AtLeast(value as u32)),
            5 => Some(Field::AtMost(value as u32)),
            _ => None,
        }
    }

    /// The word of a field. The console may ask for a partition out of range, and gets a bad word.
    pub fn word(self) -> u64 {
        match self {
            Field::Message(message) => u64::from(message),
            Field::Partition(partition) => KIND + u64::from(partition),
            Field::Key(key) => 2 * KIND + stored_key(key),
            Field::Wildcard => 3 * KIND,
            Field::AtLeast(number) => 4 * KIND + u64::from(number),
            Field::AtMost(number) => 5 * KIND + u64::from(number),
        }
    }

    /// Whether this field of a template agrees with an entry's field in the same place.
    pub fn agrees(self, entrys: Field) -> bool {
        match (self, entrys) {
            (Field::Wildcard, _) => true,
            (Field::AtLeast(number), Field::Message(message)) => message >= number,
            (Field::AtMost(number), Field::Message(message)) => message <= number,
            _ => self == entrys,
        }
    }
}

/// Whether a put may carry this word: a message or a name, neither bad nor for templates only.
pub fn may_be_put(word: u64) -> bool {
    matches!(
        Field::from_word(word),
        Some(Field::Message(_) | Field::Partition(_) | Field::Key(_))
    )
}
