//! The five splits.

/// How a node is split: SPLIT_QT, SPLIT_BT_HOR, SPLIT_BT_VER, SPLIT_TT_HOR or SPLIT_TT_VER.
#[derive(Clone, Copy, Debug, PartialEq, Eq, Hash)]
pub enum Split {
    /// Four quarters.
    Qt,
    /// Two halves, one above the other.
    BtHor,
    /// Two halves, side by side.
    BtVer,
    /// A quarter, a half and a quarter, one above the other.
    TtHor,
    /// A quarter, a half and a quarter, side by side.
    TtVer,
}

impl Split {
    /// All five.
    pub const ALL: [Self; 5] = [Self::Qt, Self::BtHor, Self::BtVer, Self::TtHor, Self::TtVer];

    /// MttSplitMode: the split that mtt_split_cu_vertical_flag and mtt_split_cu_binary_flag name.
    #[inline]
    pub fn mtt(vertical: bool, binary: bool) -> Self {
        match (vertical, binary) {
            (false, true) => Self::BtHor,
            (true, true) => Self::BtVer,
            (false, false) => Self::TtHor,
            (true, false) => Self::TtVer,
        }
    }

    /// mtt_split_cu_vertical_flag of a binary or ternary split.
    #[inline]
    pub fn is_vertical(self) -> bool {
        matches!(self, Self::BtVer | Self::TtVer)
    }

    /// mtt_split_cu_binary_flag of a binary or ternary split.
    #[inline]
    pub fn is_binary(self) -> bool {
        matches!(self, Self::BtHor | Self::BtVer)
    }
}
