/// An iterator over what has the numbers from one to another, which is made of its number as it is asked for.
macro_rules! counted {
    (
        $(#[$about:meta])*
        $name:ident<$life:lifetime> { $owner:ident: $owner_type:ty } -> $item:ty: |$number:ident| $made:expr
    ) => {
        $(#[$about])*
        #[derive(Clone)]
        pub struct $name<$life> {
            pub(crate) $owner: $owner_type,
            pub(crate) numbers: std::ops::Range<usize>,
        }

        impl<$life> $name<$life> {
            fn made(&self, $number: usize) -> $item {
                let $owner = self.$owner;
                $made
            }
        }

        impl<$life> Iterator for $name<$life> {
            type Item = $item;

            fn next(&mut self) -> Option<$item> {
                self.numbers.next().map(|number| self.made(number))
            }

            fn nth(&mut self, count: usize) -> Option<$item> {
                self.numbers.nth(count).map(|number| self.made(number))
            }

            fn size_hint(&self) -> (usize, Option<usize>) {
                self.numbers.size_hint()
            }
        }

        impl DoubleEndedIterator for $name<'_> {
            fn next_back(&mut self) -> Option<Self::Item> {
                self.numbers.next_back().map(|number| self.made(number))
            }
        }

        impl ExactSizeIterator for $name<'_> {}

        impl std::iter::FusedIterator for $name<'_> {}

        impl std::fmt::Debug for $name<'_> {
            fn fmt(&self, f: &mut std::fmt::Formatter<'_>) -> std::fmt::Result {
                f.debug_struct(stringify!($name)).field("left", &self.numbers.len()).finish()
            }
        }
    };
}

pub(crate) use counted;
