//! A history: the calls that a monitor was given, refused ones included.

/// A length of settings, and of the buffer that settings are given back in.
pub const SETTINGS_LENGTH: usize = 4096;
/// The length of the log page.
pub const PAGE_LENGTH: usize = 512;
/// The Active Bucket Timer's increment, and the most that one call may let elapse.
pub const INCREMENT_MS: u64 = 300_000;
/// The largest timestamp: 48 bits.
pub const TIMESTAMP_TOP: u64 = (1 << 48) - 1;

/// The fields of settings, bytes 0 to 12.
#[derive(Clone, Copy, Debug, Default, PartialEq)]
pub struct Settings {
    pub timer_threshold: u16,
    pub thresholds: [u8; 4],
    pub mode: u16,
    pub minimum_window: u8,
    pub debug_trigger: u16,
    pub discard: u8,
    pub enable: u8,
}

impl Settings {
    /// The fields found in the first 13 bytes.
    pub fn from_bytes(b: &[u8]) -> Settings {
        Settings {
            timer_threshold: u16::from_le_bytes([b[0], b[1]]),
            thresholds: [b[2], b[3], b[4], b[5]],
            mode: u16::from_le_bytes([b[6], b[7]]),
            minimum_window: b[8],
            debug_trigger: u16::from_le_bytes([b[9], b[10]]),
            discard: b[11],
            enable: b[12],
        }
    }

    /// Bytes 0 to 12.
    pub fn to_bytes(self) -> [u8; 13] {
        let [t0, t1] = self.timer_threshold.to_le_bytes();
        let [a, b, c, d] = self.thresholds;
        let [m0, m1] = self.mode.to_le_bytes();
        let [g0, g1] = self.debug_trigger.to_le_bytes();
        [t0, t1, a, b, c, d, m0, m1, self.minimum_window, g0, g1, self.discard, self.enable]
    }

    /// All 4,096 bytes.
    pub fn to_buffer(self) -> Vec<u8> {
        let mut buffer = vec![0; SETTINGS_LENGTH];
        buffer[..13].copy_from_slice(&self.to_bytes());
        buffer
    }

    pub fn enabled(&self) -> bool {
        self.enable == 1
    }
}

/// One of a monitor's two windows.
#[derive(Clone, Copy, Debug, PartialEq)]
pub enum Window {
    Active,
    Static,
}

/// What a completed command was: its opcode, and its deallocate attribute or bit.
#[derive(Clone, Copy, Debug, PartialEq)]
pub struct Command {
    pub opcode: u8,
    pub deallocate: bool,
}

/// One call.
#[derive(Clone, Debug)]
pub enum Call {
    /// Settings, as the bytes that were lent.
    Settings(Vec<u8>),
    Completion {
        command: Command,
        latency_us: u32,
    },
    Elapsed(u32),
    Timestamp(u64),
    PowerUp,
    /// The page, with the length of the lent buffer.
    Page(usize),
    /// Settings back, with the length of the lent buffer.
    SettingsBack(usize),
    /// The counts below A of a window.
    BelowA(Window),
    /// For tests: the active window's counter was counted up to this value here. 12 to 14 are its counts below A.
    Preset {
        counter: usize,
        value: u32,
    },
}

/// The number by which a call is turned away. It depends on the call alone.
pub fn refusal(call: &Call) -> Option<u8> {
    match call {
        Call::Settings(bytes) => settings_refusal(bytes),
        Call::Elapsed(ms) if u64::from(*ms) > INCREMENT_MS => Some(7),
        Call::Timestamp(value) if *value > TIMESTAMP_TOP => Some(8),
        Call::Page(length) if *length != PAGE_LENGTH => Some(9),
        Call::SettingsBack(length) if *length != SETTINGS_LENGTH => Some(10),
        _ => None,
    }
}

fn settings_refusal(bytes: &[u8]) -> Option<u8> {
    if bytes.len() != SETTINGS_LENGTH {
        return Some(1);
    }
    if bytes[13..] != [0; SETTINGS_LENGTH - 13] {
        return Some(2);
    }
    let s = Settings::from_bytes(bytes);
    if s.discard > 1 || s.enable > 1 {
        return Some(3);
    }
    if s.timer_threshold == 0 {
        return Some(4);
    }
    if s.thresholds.windows(2).any(|pair| pair[0] > pair[1]) {
        return Some(5);
    }
    if s.mode >> 12 != 0 || s.debug_trigger >> 12 != 0 {
        return Some(6);
    }
    None
}

/// The settings of a call, if it brings settings that are accepted.
pub fn accepted_settings(call: &Call) -> Option<Settings> {
    match call {
        Call::Settings(bytes) if refusal(call).is_none() => Some(Settings::from_bytes(bytes)),
        _ => None,
    }
}

/// The time that a call lets elapse, 0 if it is refused or another call.
pub fn accepted_elapsed(call: &Call) -> u64 {
    match call {
        Call::Elapsed(ms) if refusal(call).is_none() => u64::from(*ms),
        _ => 0,
    }
}

/// Where the clock stands just after a call that sets it, and whether the host set it.
pub fn accepted_clock(call: &Call) -> Option<(u64, bool)> {
    match call {
        Call::Timestamp(value) if refusal(call).is_none() => Some((*value, true)),
        Call::PowerUp => Some((0, false)),
        _ => None,
    }
}
