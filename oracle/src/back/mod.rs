//! Stand-in for back/mod.rs: the alias, and the unchanged file by `include!`,
//! so that the harness can call its private functions too.
pub type PipelineConstants = hashbrown::HashMap<String, f64>;

/// The unchanged file, as an ordinary module.
#[path = "../../naga/back/pipeline_constants.rs"]
pub mod pipeline_constants;

/// The unchanged file once more, by `include!`, with doors to its private functions.
#[allow(unused)]
pub mod opened {
    include!("../../naga/back/pipeline_constants.rs");

    pub fn specialise(
        module: &mut Module,
        overrides: usize,
        first_constant: usize,
        function: &mut Function,
    ) -> Result<(), ConstantEvaluatorError> {
        let mut map: HandleVec<Override, Handle<Constant>> = HandleVec::new();
        for o in 0..overrides {
            map.insert(
                crate::expressions::handle(o as u32),
                crate::expressions::handle((first_constant + o) as u32),
            );
        }
        let mut layouter = crate::proc::Layouter::default();
        process_function(module, &map, &mut layouter, function)
    }
    pub fn to_literal(value: f64, scalar: Scalar) -> Result<Literal, PipelineConstantError> {
        map_value_to_literal(value, scalar)
    }
}
