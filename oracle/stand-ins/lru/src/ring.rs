//! Places 0, 1, 2, ... linked in the order of their last use. The oldest is linked with the newest, so there are no ends.

#[derive(Default)]
pub struct Ring {
    links: Vec<Link>,
    newest: usize,
}

struct Link {
    newer: usize,
    older: usize,
}

impl Ring {
    /// There is at least one place.
    #[inline]
    pub fn oldest(&self) -> usize {
        self.links[self.newest].newer
    }

    /// The new place.
    pub fn add_newest(&mut self) -> usize {
        let place = self.links.len();
        self.links.push(Link {
            newer: place,
            older: place,
        });
        if place > 0 {
            self.link_after_newest(place);
        }
        place
    }

    #[inline]
    pub fn make_newest(&mut self, place: usize) {
        if place == self.newest {
            return;
        }
        let Link { newer, older } = self.links[place];
        self.links[newer].older = older;
        self.links[older].newer = newer;
        self.link_after_newest(place);
    }

    #[inline]
    fn link_after_newest(&mut self, place: usize) {
        let (newest, oldest) = (self.newest, self.oldest());
        self.links[place] = Link {
            newer: oldest,
            older: newest,
        };
        self.links[newest].newer = place;
        self.links[oldest].older = place;
        self.newest = place;
    }
}
