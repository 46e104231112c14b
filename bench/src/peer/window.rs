//! A thread's window: which memory words it may load and store, where it may cut, and what it shares. The step, the steal and the plain run
//! all ask here.

/// lo ≤ mark ≤ ceiling ≤ hi ≤ from ≤ to ≤ 1,024 at every state; the read span from..to is given at the fork and never changed.
#[derive(Clone, Copy, Debug, Default, PartialEq, Eq)]
pub struct Window {
    pub lo: u16,
    pub mark: u16,
    pub ceiling: u16,
    pub hi: u16,
    pub from: u16,
    pub to: u16,
}

impl Window {
    /// The root's. It has no read span, which stands at the end so that the order above has no exception.
    pub const ROOT: Window = Window { lo: 32, mark: 32, ceiling: 1024, hi: 1024, from: 1024, to: 1024 };

    /// Whether a memory word is its own to load; the shared ones are.
    #[inline(always)]
    pub fn has(&self, address: u32) -> bool {
        address >= self.mark as u32 && address < self.hi as u32
    }

    /// Whether a memory word lies in its read span.
    #[inline(always)]
    pub fn may_read(&self, address: u32) -> bool {
        address >= self.from as u32 && address < self.to as u32
    }

    /// Whether a memory word may be loaded. Parameter words always may, and are not asked for here.
    #[inline(always)]
    pub fn may_load(&self, address: u32) -> bool {
        self.has(address) || self.may_read(address)
    }

    #[inline(always)]
    pub fn may_store(&self, address: u32) -> bool {
        address >= self.mark as u32 && address < self.ceiling as u32
    }

    /// Whether a cut or a share is in range. Values are compared whole: 65,636 is not 100.
    #[inline(always)]
    fn meets(&self, value: u32) -> bool {
        value >= self.mark as u32 && value <= self.ceiling as u32
    }

    /// The part that a fork's cut gives its child, or nothing where the cut is out of range. The child reads what is shared now; where no
    /// word is, what its parent reads.
    #[inline(always)]
    pub fn part(&self, cut: u32) -> Option<Window> {
        if !self.meets(cut) {
            return None;
        }
        let cut = cut as u16;
        let (from, to) = if self.ceiling < self.hi { (self.ceiling, self.hi) } else { (self.from, self.to) };
        Some(Window { lo: self.mark, mark: self.mark, ceiling: cut, hi: cut, from, to })
    }

    /// The part is the child's from now on.
    #[inline(always)]
    pub fn cut_off(&mut self, part: &Window) {
        self.mark = part.hi;
    }

    /// A share from s up; false, and nothing changed, where s is out of range. Up to the next join the ceiling only goes down.
    #[inline(always)]
    pub fn share(&mut self, s: u32) -> bool {
        let good = self.meets(s);
        if good {
            self.ceiling = s as u16;
        }
        good
    }

    /// A join that passes.
    #[inline(always)]
    pub fn rejoin(&mut self) {
        self.mark = self.lo;
        self.ceiling = self.hi;
    }
}
