//! The stand-in for the crate `enum_bitset`: a set of the members of an enum, in number order, as in mathematics.

/// Makes the type `$set`, the sets of members of the enum `$member`.
///
/// Place n holds the member with number n or nothing, so that going through the places is number order.
macro_rules! bitset {
    ($member:ident, $set:ident) => {
        #[derive(Debug, Clone, Copy, PartialEq, Eq, Default)]
        pub struct $set([Option<$member>; 24]);

        impl $set {
            pub const fn new() -> Self {
                $set([None; 24])
            }

            pub const fn from_array<const N: usize>(members: [$member; N]) -> Self {
                let mut set = Self::new();
                let mut i = 0;
                while i < N {
                    set.0[members[i] as usize] = Some(members[i]);
                    i += 1;
                }
                set
            }

            pub const fn contains_const(&self, member: &$member) -> bool {
                self.0[*member as usize].is_some()
            }

            pub const fn union(&self, other: &Self) -> Self {
                let mut set = *self;
                let mut i = 0;
                while i < 24 {
                    if other.0[i].is_some() {
                        set.0[i] = other.0[i];
                    }
                    i += 1;
                }
                set
            }

            pub fn contains(&self, member: impl std::borrow::Borrow<$member>) -> bool {
                self.contains_const(member.borrow())
            }

            pub fn insert(&mut self, member: $member) {
                self.0[member as usize] = Some(member);
            }

            pub fn remove(&mut self, member: $member) {
                self.0[member as usize] = None;
            }

            pub fn iter(&self) -> impl Iterator<Item = $member> + '_ {
                self.0.iter().flatten().copied()
            }

            pub fn len(&self) -> usize {
                self.iter().count()
            }

            pub fn is_empty(&self) -> bool {
                self.len() == 0
            }

            pub fn is_subset_of(&self, other: &Self) -> bool {
                self.iter().all(|member| other.contains(member))
            }

            pub fn is_superset_of(&self, other: &Self) -> bool {
                other.is_subset_of(self)
            }

            pub fn is_disjoint(&self, other: &Self) -> bool {
                self.intersection(other).is_empty()
            }

            pub fn intersection(&self, other: &Self) -> Self {
                self.iter().filter(|member| other.contains(member)).collect()
            }

            pub fn difference(&self, other: &Self) -> Self {
                self.iter().filter(|member| !other.contains(member)).collect()
            }
        }

        impl FromIterator<$member> for $set {
            fn from_iter<I: IntoIterator<Item = $member>>(members: I) -> Self {
                members.into_iter().fold(Self::new(), |set, member| set | member)
            }
        }

        impl std::ops::BitOr<$member> for $set {
            type Output = Self;

            fn bitor(mut self, member: $member) -> Self {
                self.insert(member);
                self
            }
        }
    };
}
pub(crate) use bitset;
