//! The order of refusals, written here a second time.

/// When a check comes: the less, the earlier.
#[derive(Clone, Copy, Debug, PartialEq, Eq, PartialOrd, Ord)]
pub struct Order {
    stage: u32,
    index: usize,
    step: usize,
}

/// The checks of an entry, its sub-block's or attachment's included, in order.
#[derive(Clone, Copy, Debug)]
pub enum Step {
    /// 10 for the first 32 bytes.
    FirstBytes,
    /// 11 for mark and count.
    MarkAndCount,
    /// 10 for the rest.
    Rest,
    /// 11.
    WellFormed,
    /// 12.
    PixelType,
    /// 13.
    Compression,
    /// 7.
    FilePart,
    /// 14.
    FilePosition,
    /// 15.
    Copy,
    /// 16.
    Sizes,
    /// 17 of the chunk of that number.
    Chunk(usize),
    /// 18 of the chunk of that number.
    Mask(usize),
}

impl Step {
    fn rank(self) -> usize {
        match self {
            Step::FirstBytes => 0,
            Step::MarkAndCount => 1,
            Step::Rest => 2,
            Step::WellFormed => 3,
            Step::PixelType => 4,
            Step::Compression => 5,
            Step::FilePart => 6,
            Step::FilePosition => 7,
            Step::Copy => 8,
            Step::Sizes => 9,
            Step::Chunk(number) => 10 + 2 * number,
            Step::Mask(number) => 11 + 2 * number,
        }
    }
}

impl Order {
    const fn new(stage: u32, index: usize, step: usize) -> Order {
        Order { stage, index, step }
    }

    /// 1.
    pub const LENGTH: Order = Order::new(0, 0, 0);
    /// 6.
    pub const MAJOR: Order = Order::new(2, 0, 6);
    /// 7 of the file segment.
    pub const FILE_PART: Order = Order::new(2, 0, 7);
    /// 8.
    pub const UPDATE_PENDING: Order = Order::new(2, 0, 8);
    /// 10 of the directory before its entries.
    pub const DIRECTORY: Order = Order::new(4, 0, 0);
    /// 10 of the metadata segment.
    pub const METADATA: Order = Order::new(6, 0, 0);
    /// 10 of the attachment directory, for all its entries.
    pub const ATTACHMENT_DIRECTORY: Order = Order::new(7, 0, 0);

    /// 4, 2, 3 or 5 of a segment.
    pub fn segment(index: usize, number: u32) -> Order {
        let rank = [4, 2, 3, 5].iter().position(|&n| n == number);
        Order::new(1, index, rank.expect("a segment's number"))
    }

    /// 9 at that offset.
    pub fn position(field: usize) -> Order {
        Order::new(3, field, 0)
    }

    /// A check of an entry of the sub-block directory.
    pub fn entry(index: usize, step: Step) -> Order {
        Order::new(5, index, step.rank())
    }

    /// A check of an entry of the attachment directory.
    pub fn attachment(index: usize, step: Step) -> Order {
        Order::new(8, index, step.rank())
    }
}
