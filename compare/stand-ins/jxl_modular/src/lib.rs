//! Stand-in for `jxl_modular`: the channels are lent, in place of a decoded image. They come along
//! with the `MaConfig`, which also notes what channels were asked for.

use std::cell::RefCell;
use std::fmt;

use jxl_bitstream::Bitstream;
use jxl_grid::{AlignedGrid, AllocTracker};
use jxl_threadpool::JxlThreadPool;

pub trait Sample: Copy + Default + fmt::Debug {
    fn to_i32(self) -> i32;

    /// Takes the lent channels.
    fn take_lent(config: &MaConfig) -> Option<Vec<AlignedGrid<Self>>>;
}

impl Sample for i32 {
    #[inline]
    fn to_i32(self) -> i32 {
        self
    }

    fn take_lent(config: &MaConfig) -> Option<Vec<AlignedGrid<i32>>> {
        config.lent.take()
    }
}

/// The lent channels, to be handed out once.
#[derive(Debug, Default)]
pub struct MaConfig {
    lent: RefCell<Option<Vec<AlignedGrid<i32>>>>,
    asked: RefCell<Vec<ModularChannelParams>>,
}

impl MaConfig {
    pub fn lending(channels: Vec<AlignedGrid<i32>>) -> Self {
        Self {
            lent: RefCell::new(Some(channels)),
            asked: RefCell::default(),
        }
    }

    /// The channels that were asked for.
    pub fn asked(&self) -> Vec<ModularChannelParams> {
        self.asked.borrow().clone()
    }
}

#[derive(Debug, Copy, Clone)]
pub struct ModularChannelParams {
    pub width: u32,
    pub height: u32,
}

impl ModularChannelParams {
    pub fn new(width: u32, height: u32) -> Self {
        Self { width, height }
    }
}

#[derive(Debug)]
pub struct ModularParams<'ma> {
    channels: Vec<ModularChannelParams>,
    config: Option<&'ma MaConfig>,
}

impl<'ma> ModularParams<'ma> {
    pub fn with_channels(
        _group_dim: u32,
        _bits_per_sample: u32,
        channels: Vec<ModularChannelParams>,
        config: Option<&'ma MaConfig>,
        _tracker: Option<&AllocTracker>,
    ) -> Self {
        Self { channels, config }
    }

    pub fn new(
        width: u32,
        height: u32,
        group_dim: u32,
        bits_per_sample: u32,
        shifts: Vec<ChannelShift>,
        config: Option<&'ma MaConfig>,
        tracker: Option<&AllocTracker>,
    ) -> Self {
        let channel = ModularChannelParams::new(width, height);
        let channels = vec![channel; shifts.len()];
        Self::with_channels(group_dim, bits_per_sample, channels, config, tracker)
    }
}

#[derive(Debug)]
pub struct Modular<S: Sample> {
    image: Image<S>,
}

impl<S: Sample> Modular<S> {
    pub fn parse(_bitstream: &mut Bitstream, params: ModularParams) -> Result<Self> {
        let config = params.config.ok_or(Error::NothingLent)?;
        config.asked.replace(params.channels);
        let channels = S::take_lent(config).ok_or(Error::NothingLent)?;
        Ok(Self {
            image: Image { channels },
        })
    }

    pub fn image_mut(&mut self) -> Option<&mut Image<S>> {
        Some(&mut self.image)
    }

    pub fn into_image(self) -> Option<Image<S>> {
        Some(self.image)
    }
}

#[derive(Debug)]
pub struct Image<S: Sample> {
    channels: Vec<AlignedGrid<S>>,
}

impl<S: Sample> Image<S> {
    pub fn prepare_subimage(&mut self) -> Result<Subimage> {
        Ok(Subimage)
    }

    pub fn into_image_channels(self) -> Vec<AlignedGrid<S>> {
        self.channels
    }
}

#[derive(Debug)]
pub struct Subimage;

impl Subimage {
    pub fn decode(
        &mut self,
        _bitstream: &mut Bitstream,
        _stream_index: u32,
        _allow_partial: bool,
    ) -> Result<()> {
        Ok(())
    }

    pub fn finish(self, _pool: &JxlThreadPool) -> bool {
        true
    }
}

/// No shift: subsampled pass groups are not read yet (document 01).
#[derive(Debug, Copy, Clone)]
pub struct ChannelShift;

impl ChannelShift {
    pub fn from_jpeg_upsampling(jpeg_upsampling: [u32; 3], _channel: usize) -> Self {
        assert_eq!(jpeg_upsampling, [0; 3]);
        Self
    }

    pub fn hshift(&self) -> i32 {
        0
    }

    pub fn vshift(&self) -> i32 {
        0
    }

    pub fn shift_size(&self, size: (u32, u32)) -> (u32, u32) {
        size
    }
}

#[derive(Debug)]
pub enum Error {
    NothingLent,
}

pub type Result<T> = std::result::Result<T, Error>;

impl Error {
    pub fn unexpected_eof(&self) -> bool {
        false
    }
}

impl fmt::Display for Error {
    fn fmt(&self, f: &mut fmt::Formatter<'_>) -> fmt::Result {
        write!(f, "{self:?}")
    }
}

impl std::error::Error for Error {}
