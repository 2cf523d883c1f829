//! Which channels have a marked end in this cycle. Times are compared instead of emptying the
//! lists, so that a cycle touches only the channels it meets.

#[derive(Clone, Copy, Default)]
struct Channel {
    input_at: u32,
    output_at: u32,
    /// The expression of the OUT.
    sent: u16,
}

pub struct Channels {
    list: Vec<Channel>,
    now: u32,
    /// Whether a channel has two marked IN or two marked OUT.
    pub crowded: bool,
}

impl Channels {
    pub fn new(count: u16) -> Channels {
        Channels {
            list: vec![Channel::default(); count as usize],
            now: 0,
            crowded: false,
        }
    }

    pub fn next_cycle(&mut self) {
        self.now += 1;
    }

    #[inline]
    pub fn add_input(&mut self, channel: u16) {
        let entry = &mut self.list[channel as usize];
        self.crowded |= entry.input_at == self.now;
        entry.input_at = self.now;
    }

    #[inline]
    pub fn add_output(&mut self, channel: u16, sent: u16) {
        let entry = &mut self.list[channel as usize];
        self.crowded |= entry.output_at == self.now;
        entry.output_at = self.now;
        entry.sent = sent;
    }

    #[inline]
    pub fn has_input(&self, channel: u16) -> bool {
        self.list[channel as usize].input_at == self.now
    }

    #[inline]
    pub fn has_output(&self, channel: u16) -> bool {
        self.list[channel as usize].output_at == self.now
    }

    /// The expression of the marked OUT, if there is one.
    #[inline]
    pub fn sent(&self, channel: u16) -> Option<u16> {
        self.has_output(channel)
            .then(|| self.list[channel as usize].sent)
    }
}
