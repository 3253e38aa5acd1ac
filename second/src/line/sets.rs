//! Addresses, and sets of stations, pages and objects.

pub const STATIONS: usize = 8;
pub const PAGES: usize = 32;
pub const OBJECTS: usize = 8;
pub const ADDRESSES: usize = PAGES * OBJECTS;

/// "bit p is page p"
pub type PageSet = u32;
/// "bit i is object i"
pub type ObjectSet = u8;
/// Bit s is station s.
pub type StationSet = u8;

/// "Address = page × 8 + object."
pub fn address(page: u8, object: u8) -> u8 {
    page * 8 + object
}

pub fn page_of(address: u8) -> u8 {
    address / 8
}

pub fn object_of(address: u8) -> u8 {
    address % 8
}

pub fn object_bit(address: u8) -> ObjectSet {
    1 << object_of(address)
}

pub fn page_bit(page: u8) -> PageSet {
    1 << page
}

pub fn station_bit(station: u8) -> StationSet {
    1 << station
}

/// Members of a set, rising.
pub fn rising(set: impl Into<u32>) -> impl Iterator<Item = u8> {
    let mut rest: u32 = set.into();
    std::iter::from_fn(move || {
        let first = rest.trailing_zeros();
        rest &= rest.wrapping_sub(1);
        (first < 32).then_some(first as u8)
    })
}

/// A set of objects of the whole line: object sets by page.
#[derive(Clone, Copy, Debug, Default, PartialEq, Eq)]
pub struct Addresses(pub [ObjectSet; PAGES]);

impl Addresses {
    pub fn one(address: u8) -> Addresses {
        let mut set = Addresses::default();
        set.insert(address);
        set
    }

    pub fn insert(&mut self, address: u8) {
        self.0[page_of(address) as usize] |= object_bit(address);
    }

    pub fn join(&mut self, page: u8, objects: ObjectSet) {
        self.0[page as usize] |= objects;
    }

    pub fn has(&self, address: u8) -> bool {
        self.on(page_of(address)) & object_bit(address) != 0
    }

    pub fn on(&self, page: u8) -> ObjectSet {
        self.0[page as usize]
    }

    /// How many objects.
    #[inline]
    pub fn count(&self) -> usize {
        let (words, _) = self.0.as_chunks();
        let ones = |word: &[u8; 8]| u64::from_le_bytes(*word).count_ones() as usize;
        words.iter().map(ones).sum()
    }

    /// The lowest of them, so many.
    pub fn lowest(&self, count: usize) -> Addresses {
        let members = (0..=u8::MAX).filter(|address| self.has(*address));
        members.take(count).collect()
    }

    /// Pages with a member.
    pub fn pages(&self) -> PageSet {
        let set_on = |(page, set): (usize, &ObjectSet)| PageSet::from(*set != 0) << page;
        self.0.iter().enumerate().map(set_on).sum()
    }

    /// The two have an object in common.
    pub fn meets(&self, other: &Addresses) -> bool {
        let both = |(a, b): (&ObjectSet, &ObjectSet)| a & b;
        self.0
            .iter()
            .zip(&other.0)
            .map(both)
            .fold(0, |any, set| any | set)
            != 0
    }

    pub fn with(mut self, other: &Addresses) -> Addresses {
        for (set, more) in self.0.iter_mut().zip(&other.0) {
            *set |= more;
        }
        self
    }
}

/// What an owner writes at once: some objects of one page, at least one, with a value for each.
#[derive(Clone, Copy, Debug, PartialEq, Eq)]
pub struct Writing {
    page: u8,
    objects: ObjectSet,
    /// 0 for the others.
    values: [u64; OBJECTS],
}

impl Writing {
    /// "The owner's write of one object".
    pub fn one(address: u8, value: u64) -> Writing {
        let mut values = [0; OBJECTS];
        values[object_of(address) as usize] = value;
        Writing {
            page: page_of(address),
            objects: object_bit(address),
            values,
        }
    }

    /// The values of objects outside the set do not count; None where there is no such page, or the set is empty or none.
    pub fn of(page: u32, objects: u32, values: &[u64; OBJECTS]) -> Option<Writing> {
        let page = u8::try_from(page).ok()?;
        let objects = ObjectSet::try_from(objects).ok()?;
        let counted = |object: usize| match objects >> object & 1 {
            1 => values[object],
            _ => 0,
        };
        let named = usize::from(page) < PAGES && objects != 0;
        named.then_some(Writing {
            page,
            objects,
            values: std::array::from_fn(counted),
        })
    }

    pub fn page(&self) -> u8 {
        self.page
    }

    pub fn objects(&self) -> ObjectSet {
        self.objects
    }

    pub fn has(&self, address: u8) -> bool {
        page_of(address) == self.page && self.objects & object_bit(address) != 0
    }

    /// Addresses and values, rising.
    pub fn entries(&self) -> impl Iterator<Item = (u8, u64)> + use<> {
        let Writing { page, values, .. } = *self;
        rising(self.objects).map(move |object| (address(page, object), values[object as usize]))
    }
}

impl FromIterator<u8> for Addresses {
    fn from_iter<I: IntoIterator<Item = u8>>(addresses: I) -> Addresses {
        let mut set = Addresses::default();
        addresses
            .into_iter()
            .for_each(|address| set.insert(address));
        set
    }
}
