//! Stand-in for `jxl_threadpool`: everything runs where it is called.

#[derive(Debug)]
pub struct JxlThreadPool;
