pub mod datalink {
    /// Six octets, as pnet has them.
    #[derive(Default, Clone, Copy, PartialEq, Eq, PartialOrd, Ord, Hash)]
    pub struct MacAddr(pub u8, pub u8, pub u8, pub u8, pub u8, pub u8);

    impl MacAddr {
        pub fn octets(self) -> [u8; 6] {
            [self.0, self.1, self.2, self.3, self.4, self.5]
        }
    }

    impl From<[u8; 6]> for MacAddr {
        fn from(o: [u8; 6]) -> Self {
            Self(o[0], o[1], o[2], o[3], o[4], o[5])
        }
    }

    impl std::fmt::Display for MacAddr {
        fn fmt(&self, f: &mut std::fmt::Formatter<'_>) -> std::fmt::Result {
            let [a, b, c, d, e, g] = self.octets();
            write!(f, "{a:02x}:{b:02x}:{c:02x}:{d:02x}:{e:02x}:{g:02x}")
        }
    }

    impl std::fmt::Debug for MacAddr {
        fn fmt(&self, f: &mut std::fmt::Formatter<'_>) -> std::fmt::Result {
            std::fmt::Display::fmt(self, f)
        }
    }
}
