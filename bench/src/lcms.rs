//! LittleCMS, the colour field's usual tool: 16-bit interpolation of a 3-input table.

#[cfg(not(lcms2))]
pub fn run() {
    println!("\nLittleCMS: skipped, liblcms2-dev is not installed");
}

#[cfg(lcms2)]
pub use linked::run;

#[cfg(lcms2)]
mod linked {
    use crate::clock::{side_by_side, Run};
    use crate::inputs::{cube, estimable, positions};
    use crate::report::{heading, kind, line};
    use lukhtari::{dose, estimate, Key};
    use std::ffi::c_void;
    use std::ptr;

    const COUNT: u32 = 17;
    const POINTS: usize = 1024;

    extern "C" {
        fn cmsPipelineAlloc(context: *mut c_void, inputs: u32, outputs: u32) -> *mut c_void;
        fn cmsPipelineFree(pipeline: *mut c_void);
        fn cmsStageAllocCLut16bit(
            context: *mut c_void,
            nodes: u32,
            inputs: u32,
            outputs: u32,
            table: *const u16,
        ) -> *mut c_void;
        fn cmsPipelineInsertStage(pipeline: *mut c_void, place: u32, stage: *mut c_void) -> i32;
        fn cmsPipelineEval16(input: *const u16, output: *mut u16, pipeline: *const c_void);
    }

    // A pipeline of one table with three inputs and one output.
    struct Pipeline(*mut c_void);

    impl Pipeline {
        fn new(table: &[u16]) -> Pipeline {
            // SAFETY: the table has one number for each node, and LittleCMS copies it.
            unsafe {
                let pipeline = cmsPipelineAlloc(ptr::null_mut(), 3, 1);
                let stage = cmsStageAllocCLut16bit(ptr::null_mut(), COUNT, 3, 1, table.as_ptr());
                assert!(!pipeline.is_null() && !stage.is_null());
                assert!(cmsPipelineInsertStage(pipeline, 0, stage) != 0);
                Pipeline(pipeline)
            }
        }

        fn eval(&self, input: [u16; 3]) -> u16 {
            let mut output = 0;
            // SAFETY: the pipeline has three inputs and one output.
            unsafe { cmsPipelineEval16(input.as_ptr(), &mut output, self.0) };
            output
        }
    }

    impl Drop for Pipeline {
        fn drop(&mut self) {
            // SAFETY: the pipeline was made by `new` and is freed once.
            unsafe { cmsPipelineFree(self.0) }
        }
    }

    pub fn run() {
        let title = "Doses on 3 axes beside LittleCMS, which interpolates linearly";
        heading(title, &["library", "LittleCMS 16-bit"]);
        for degree in [3, 5] {
            line(&kind(degree, 3), &times(degree));
        }
    }

    fn times(degree: u32) -> Vec<f64> {
        let shape = cube(degree, 3, COUNT);
        let samples = estimable(shape);
        let mut records = vec![0; shape.entries()];
        estimate(Key::Service, shape, &samples, &mut records).expect("accepted table");
        let table: Vec<u16> = samples
            .iter()
            .map(|&sample| (sample + 32768) as u16)
            .collect();
        let pipeline = Pipeline::new(&table);
        let points = positions(shape, POINTS);
        let scale = |step: i32| (step as u32 * 65535 / (256 * (COUNT - 1))) as u16;
        let inputs: Vec<[u16; 3]> = points.iter().map(|p| p.map(scale)).collect();
        let mut runs: [Run; 2] = [
            Box::new(|| {
                let answer =
                    |&p: &[i32; 3]| dose(Key::Service, shape, &records, p).expect("accepted query");
                points.iter().map(|p| answer(p).value as i64).sum()
            }),
            Box::new(|| {
                inputs
                    .iter()
                    .map(|&input| pipeline.eval(input) as i64)
                    .sum()
            }),
        ];
        side_by_side(POINTS, &mut runs)
    }
}
