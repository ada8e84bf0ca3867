//! Calls, each with all that is lent to it.

use crate::fault::Fault::{self, *};
use crate::format::{self, THRESHOLD_PLACE};
use crate::make;
use second::vault::Combo;

#[derive(Clone, Copy, Debug, PartialEq, Eq)]
pub enum Call {
    OpenLabel,
    MakeVault,
    WriteHeader,
    OpenHeader,
    WriteChunk,
    OpenChunk,
    WriteFile,
    OpenFile,
    ReadRange,
    OpenReader,
    ReaderRead,
    Mend,
    WriteName,
    OpenName,
    OpenLongName,
    DirPath,
    FileLength,
    CleartextLength,
    WrapKey,
    UnwrapKey,
}

impl Call {
    pub const ALL: [Call; 20] = [
        Call::OpenLabel,
        Call::MakeVault,
        Call::WriteHeader,
        Call::OpenHeader,
        Call::WriteChunk,
        Call::OpenChunk,
        Call::WriteFile,
        Call::OpenFile,
        Call::ReadRange,
        Call::OpenReader,
        Call::ReaderRead,
        Call::Mend,
        Call::WriteName,
        Call::OpenName,
        Call::OpenLongName,
        Call::DirPath,
        Call::FileLength,
        Call::CleartextLength,
        Call::WrapKey,
        Call::UnwrapKey,
    ];

    /// Whether a vault is lent to it, as its first input.
    pub fn takes_vault(self) -> bool {
        !matches!(
            self,
            Call::OpenLabel | Call::MakeVault | Call::ReaderRead | Call::WrapKey | Call::UnwrapKey
        )
    }

    /// Whether it is on names or paths.
    pub fn is_on_names(self) -> bool {
        matches!(
            self,
            Call::WriteName | Call::OpenName | Call::OpenLongName | Call::DirPath
        )
    }

    /// Whether it looks at the threshold of the vault that is lent to it.
    pub fn is_by_threshold(self) -> bool {
        self.is_on_names() && self != Call::DirPath
    }

    /// The faults that the call looks for, in the order in which it does.
    pub fn faults(self) -> &'static [Fault] {
        match self {
            Call::OpenLabel => OF_LABEL,
            Call::MakeVault => &[KeyOrNonceSize, Room, Combo, Threshold],
            Call::WriteHeader => &[VaultSize, Combo, KeyOrNonceSize, Room],
            Call::OpenHeader => &[VaultSize, Combo, Length, Room, Header],
            Call::WriteChunk => &[VaultSize, Combo, KeyOrNonceSize, Length, Room],
            Call::OpenChunk => &[VaultSize, Combo, KeyOrNonceSize, Length, Room, Chunk],
            Call::WriteFile => OF_WRITTEN_FILE,
            Call::OpenFile => &[VaultSize, Combo, Length, Room, Header, Chunk],
            Call::ReadRange => &[VaultSize, Combo, Length, Range, Room, Header, Chunk],
            Call::OpenReader => &[VaultSize, Combo, Length, Room, Header],
            Call::ReaderRead => &[VaultSize, Combo, NoReader, Length, Range, Room, Chunk],
            Call::Mend => OF_MEND,
            Call::WriteName => &[VaultSize, Threshold, Combo, DirectoryId, Name, Room],
            Call::OpenName => OF_OPENED_NAME,
            Call::OpenLongName => OF_OPENED_LONG_NAME,
            Call::DirPath => &[VaultSize, Combo, DirectoryId, Room],
            Call::FileLength | Call::CleartextLength => &[VaultSize, Combo, Length],
            Call::WrapKey => &[KeyOrNonceSize, Room],
            Call::UnwrapKey => &[KeyOrNonceSize, Length, Room, CheckValue],
        }
    }
}

const OF_LABEL: &[Fault] = &[
    KeyOrNonceSize,
    Label,
    Alg,
    Signature,
    Format,
    Combo,
    Threshold,
];

const OF_WRITTEN_FILE: &[Fault] = &[
    VaultSize,
    Combo,
    KeyOrNonceSize,
    Length,
    Room,
    RepeatedNonce,
];

const OF_MEND: &[Fault] = &[
    VaultSize,
    Combo,
    KeyOrNonceSize,
    Length,
    Range,
    RepeatedNonce,
    Header,
    Chunk,
];

const OF_OPENED_NAME: &[Fault] = &[
    VaultSize,
    Threshold,
    Combo,
    DirectoryId,
    Text,
    Room,
    SyntheticIv,
    Name,
];

const OF_OPENED_LONG_NAME: &[Fault] = &[
    VaultSize,
    Threshold,
    Combo,
    DirectoryId,
    Text,
    Room,
    HashName,
    SyntheticIv,
    Name,
];

/// Inputs, numbers and buffers are each in the order of the C boundary. The file
/// that a mend changes is a buffer, and so are the keys of a reader to make.
#[derive(Clone, Debug)]
pub struct Case {
    pub call: Call,
    pub inputs: Vec<Vec<u8>>,
    pub numbers: Vec<u64>,
    pub buffers: Vec<Vec<u8>>,
}

impl Case {
    /// The combo that is lent, in a vault, in the keys of a reader or as a number.
    pub fn combo(&self) -> Option<Combo> {
        match self.call {
            Call::MakeVault => Combo::of_number(self.vault_numbers()[0]).ok(),
            Call::OpenLabel | Call::WrapKey | Call::UnwrapKey => None,
            Call::ReaderRead => format::combo_of_keys(&self.inputs[1]),
            _ => format::combo_of(&self.inputs[0]),
        }
    }

    /// The vault that is lent, or the keys of a reader. Both have the number of
    /// the combo at one place.
    pub fn record_mut(&mut self) -> Option<&mut Vec<u8>> {
        match self.call {
            Call::ReaderRead => self.inputs.get_mut(1),
            call if call.takes_vault() => self.inputs.get_mut(0),
            _ => None,
        }
    }

    /// The header or file that is opened, read or mended.
    pub fn file(&self) -> &[u8] {
        match self.call {
            Call::Mend => &self.buffers[0],
            Call::ReaderRead => &self.inputs[0],
            _ => &self.inputs[1],
        }
    }

    pub fn file_mut(&mut self) -> &mut Vec<u8> {
        match self.call {
            Call::Mend => &mut self.buffers[0],
            Call::ReaderRead => &mut self.inputs[0],
            _ => &mut self.inputs[1],
        }
    }

    /// The start and the length of the range that is opened, read or mended.
    pub fn range(&self) -> (u64, u64) {
        match (self.call, &self.numbers[..]) {
            (Call::ReadRange | Call::ReaderRead, &[from, count]) => (from, count),
            (Call::Mend, &[from]) => (from, self.inputs[1].len() as u64),
            _ => (0, make::cleartext_len(self) as u64),
        }
    }

    /// The threshold of the vault that is lent.
    pub fn threshold(&self) -> u8 {
        self.inputs[0][THRESHOLD_PLACE]
    }

    /// The combo and the threshold that a vault is made with: the C boundary has
    /// 32 bits for each.
    pub fn vault_numbers(&self) -> [u32; 2] {
        [self.numbers[0] as u32, self.numbers[1] as u32]
    }

    /// The results before the call. The combo and the threshold of a label have
    /// 32 bits.
    pub fn old_results(&self) -> [u64; 3] {
        let [length, other] = match self.call {
            Call::OpenLabel => [OLD_LENGTH, OLD_OTHER].map(|old| u64::from(old as u32)),
            _ => [OLD_LENGTH, OLD_OTHER],
        };
        [length, other, OLD_AT]
    }
}

/// What is there after a call.
#[derive(Clone, Debug, PartialEq, Eq)]
pub struct End {
    /// 0 for done.
    pub row: u32,
    /// The length written, that of the cleartext of a reader, or the combo of a
    /// label.
    pub length: u64,
    /// The length of the full name, the header's reserved bytes as a number, or
    /// the threshold of a label.
    pub other: u64,
    /// The chunk's number, or the place at which a text is broken.
    pub at: u64,
    pub buffers: Vec<Vec<u8>>,
}

impl End {
    /// The chunk's number or the place, if the call gave one.
    pub fn place(&self) -> Option<u64> {
        (self.at != OLD_AT).then_some(self.at)
    }
}

/// The length before a call.
const OLD_LENGTH: u64 = 0x0123_4567_89ab_cdef;

/// The other number before a call.
const OLD_OTHER: u64 = 0xfedc_ba98_7654_3210;

/// The chunk's number or the place before a call.
const OLD_AT: u64 = 0x8765_4321_0fed_cba9;
