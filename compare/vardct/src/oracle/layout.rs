use calls::{Answer, ColumnCount, ColumnCountCall, LayoutBuffers, LayoutCall, Outcome};
use jxl_bitstream::Bitstream;
use jxl_grid::AlignedGrid;
use jxl_modular::MaConfig;
use jxl_oxide_common::Bundle;
use jxl_threadpool::JxlThreadPool;

use super::transform::kind_and_mul;
use super::{number_of, refusal_of};
use crate::{Error, HfMetadata, HfMetadataParams, Result};

/// `HfMetadata::parse` up to its column count, which is seen from the channels it asks for.
pub fn column_count(call: &ColumnCountCall) -> Answer<ColumnCount> {
    let config = MaConfig::default();
    let mut bitstream = Bitstream::new(&call.bytes);
    let params = params(call.width, call.height, call.modes, &config);
    let result = HfMetadata::parse(&mut bitstream, params);
    match result {
        Err(Error::Modular(jxl_modular::Error::NothingLent)) => Ok(ColumnCount {
            count: config.asked()[2].width,
            bits_read: bitstream.bits_read(),
        }),
        Err(error) => Err(refusal_of(&error, &bitstream)),
        Ok(_) => unreachable!("no channels were lent"),
    }
}

/// The layout call; the answer is the number of columns used.
pub fn layout(call: &LayoutCall) -> Outcome<usize, LayoutBuffers> {
    let blocks = call.buffers.kinds.len();
    match LayoutRun::new(call, call.types.len()).run() {
        Ok(metadata) => accepted(&metadata),
        Err(_) => Outcome {
            answer: Err(refusal(call)),
            buffers: LayoutBuffers::zeros(blocks),
        },
    }
}

/// The sides of the grid that `HfMetadata::parse` makes for a layout call that it accepts, in blocks.
pub fn grid_sides(call: &LayoutCall) -> Option<(usize, usize)> {
    let metadata = LayoutRun::new(call, call.types.len()).run().ok()?;
    let grid = metadata.block_info.as_subgrid();
    Some((grid.width(), grid.height()))
}

fn accepted(metadata: &HfMetadata) -> Outcome<usize, LayoutBuffers> {
    let cells = metadata.block_info.buf().iter().copied().map(kind_and_mul);
    let (kinds, hf_mul): (Vec<u8>, Vec<i32>) = cells.unzip();
    let used = kinds.iter().filter(|&&kind| kind >= 2).count();
    let sigma = metadata.epf_sigma.buf().to_vec();
    Outcome {
        answer: Ok(used),
        buffers: LayoutBuffers {
            kinds,
            hf_mul,
            sigma,
        },
    }
}

/// The refusal of a refused layout. The Rust tells no position with 5 and 10: it is the position at
/// which the Rust asks for the refused column when the list ends before it.
fn refusal(call: &LayoutCall) -> calls::Refusal {
    let (number, own) = refused_with(call, call.types.len());
    if !matches!(number, 5 | 10) {
        return own;
    }
    let (mut ends, mut refused) = (0, call.types.len());
    while ends + 1 < refused {
        let middle = (ends + refused) / 2;
        match refused_with(call, middle).0 {
            4 => ends = middle,
            _ => refused = middle,
        }
    }
    calls::Refusal {
        number,
        ..refused_with(call, ends).1
    }
}

/// The refusal when only the first `columns` columns are lent.
fn refused_with(call: &LayoutCall, columns: usize) -> (u32, calls::Refusal) {
    let bitstream = Bitstream::new(&[]);
    let run = LayoutRun::new(call, columns).run();
    let error = run.expect_err("a list cut short is refused as well");
    let number = number_of(&error);
    (number, refusal_of(&error, &bitstream))
}

/// A layout call made ready, so that running it takes no copy of the lent lists.
pub struct LayoutRun<'a> {
    call: &'a LayoutCall,
    config: MaConfig,
}

impl<'a> LayoutRun<'a> {
    pub fn new(call: &'a LayoutCall, columns: usize) -> Self {
        let rows = [&call.types[..columns], &call.muls[..columns]].concat();
        let channels = vec![
            AlignedGrid::of(0, 0, Vec::new()),
            AlignedGrid::of(0, 0, Vec::new()),
            AlignedGrid::of(columns, 2, rows),
            AlignedGrid::of(call.sharpness.len(), 1, call.sharpness.clone()),
        ];
        Self {
            call,
            config: MaConfig::lending(channels),
        }
    }

    pub fn run(self) -> Result<HfMetadata> {
        let call = self.call;
        let params = HfMetadataParams {
            epf: call.filter.map(|multiplier| (multiplier, call.lookup)),
            quantizer_global_scale: call.scale,
            ..params(call.width, call.height, call.modes, &self.config)
        };
        // The count of columns is a call of its own: any count does here.
        HfMetadata::parse(&mut Bitstream::new(&[0; 4]), params)
    }
}

fn params(
    width: u32,
    height: u32,
    modes: [u32; 3],
    config: &MaConfig,
) -> HfMetadataParams<'_, 'static, 'static> {
    HfMetadataParams {
        num_lf_groups: 1,
        lf_group_idx: 0,
        lf_width: width,
        lf_height: height,
        jpeg_upsampling: modes,
        bits_per_sample: 8,
        global_ma_config: Some(config),
        epf: None,
        quantizer_global_scale: 1,
        tracker: None,
        pool: &JxlThreadPool,
    }
}
