//! Stand-in for ir/mod.rs: the types with just the fields that pipeline_constants.rs
//! and the cut text of constant_evaluator.rs name. `ty: _`, `op: _` ... are unit or small numbers:
//! what they hold travels in the span's words.
#[path = "../../naga/ir/block.rs"]
pub mod block;
use crate::arena::{Arena, Handle, Range, UniqueArena};
pub use block::Block;
use half::f16;

#[derive(Clone, Copy, Debug, PartialEq, Eq)]
pub enum ShaderStage {
    Vertex,
    Task,
    Mesh,
    Fragment,
    Compute,
}

#[derive(Clone, Copy, Debug, PartialEq, Eq)]
pub enum ScalarKind {
    Sint,
    Uint,
    Float,
    Bool,
    AbstractInt,
    AbstractFloat,
}

#[derive(Clone, Copy, Debug, PartialEq, Eq)]
pub struct Scalar {
    pub kind: ScalarKind,
    pub width: u8,
}
impl Scalar {
    pub const I16: Self = Scalar {
        kind: ScalarKind::Sint,
        width: 2,
    };
    pub const U16: Self = Scalar {
        kind: ScalarKind::Uint,
        width: 2,
    };
    pub const I32: Self = Scalar {
        kind: ScalarKind::Sint,
        width: 4,
    };
    pub const U32: Self = Scalar {
        kind: ScalarKind::Uint,
        width: 4,
    };
    pub const F16: Self = Scalar {
        kind: ScalarKind::Float,
        width: 2,
    };
    pub const F32: Self = Scalar {
        kind: ScalarKind::Float,
        width: 4,
    };
    pub const F64: Self = Scalar {
        kind: ScalarKind::Float,
        width: 8,
    };
    pub const I64: Self = Scalar {
        kind: ScalarKind::Sint,
        width: 8,
    };
    pub const U64: Self = Scalar {
        kind: ScalarKind::Uint,
        width: 8,
    };
    pub const BOOL: Self = Scalar {
        kind: ScalarKind::Bool,
        width: 1,
    };
    pub const ABSTRACT_INT: Self = Scalar {
        kind: ScalarKind::AbstractInt,
        width: 8,
    };
    pub const ABSTRACT_FLOAT: Self = Scalar {
        kind: ScalarKind::AbstractFloat,
        width: 8,
    };
}

#[derive(Clone, Copy, Debug, PartialEq)]
pub enum Literal {
    Bool(bool),
    I16(i16),
    U16(u16),
    I32(i32),
    U32(u32),
    F16(f16),
    F32(f32),
    F64(f64),
    I64(i64),
    U64(u64),
    AbstractInt(i64),
    AbstractFloat(f64),
}

#[derive(Clone, Debug, PartialEq)]
pub struct Type {
    pub name: Option<String>,
    pub inner: TypeInner,
}
#[derive(Clone, Debug, PartialEq)]
pub enum TypeInner {
    Scalar(Scalar),
    Other,
}

#[derive(Clone, Debug)]
pub struct Override {
    pub name: Option<String>,
    pub id: Option<u16>,
    pub ty: Handle<Type>,
    pub init: Option<Handle<Expression>>,
}
#[derive(Clone, Debug)]
pub struct Constant {
    pub name: Option<String>,
    pub ty: Handle<Type>,
    pub init: Handle<Expression>,
}
#[derive(Clone, Debug)]
pub struct GlobalVariable {
    pub init: Option<Handle<Expression>>,
}
#[derive(Clone, Debug)]
pub struct LocalVariable {
    pub init: Option<Handle<Expression>>,
}

type H = Handle<Expression>;

#[derive(Clone, Debug)]
pub enum SampleLevel {
    Auto,
    Zero,
    Exact(H),
    Bias(H),
    Gradient { x: H, y: H },
}
#[derive(Clone, Debug)]
pub enum ImageQuery {
    Size { level: Option<H> },
    NumLevels,
    NumLayers,
    NumSamples,
}
#[derive(Clone, Debug)]
pub struct CooperativeData {
    pub pointer: H,
    pub stride: H,
}

/// In the order in which adjust_expr names them.
#[derive(Clone, Debug)]
pub enum Expression {
    Compose {
        ty: (),
        components: Vec<H>,
    },
    Access {
        base: H,
        index: H,
    },
    AccessIndex {
        base: H,
        index: (),
    },
    Splat {
        size: (),
        value: H,
    },
    Swizzle {
        size: (),
        vector: H,
        pattern: (),
    },
    Load {
        pointer: H,
    },
    ImageSample {
        image: H,
        sampler: H,
        gather: (),
        coordinate: H,
        array_index: Option<H>,
        offset: Option<H>,
        level: SampleLevel,
        depth_ref: Option<H>,
        clamp_to_edge: (),
    },
    ImageLoad {
        image: H,
        coordinate: H,
        array_index: Option<H>,
        sample: Option<H>,
        level: Option<H>,
    },
    ImageQuery {
        image: H,
        query: ImageQuery,
    },
    Unary {
        op: (),
        expr: H,
    },
    Binary {
        op: u32,
        left: H,
        right: H,
    },
    Select {
        condition: H,
        accept: H,
        reject: H,
    },
    Derivative {
        axis: (),
        ctrl: (),
        expr: H,
    },
    Relational {
        fun: (),
        argument: H,
    },
    Math {
        fun: (),
        arg: H,
        arg1: Option<H>,
        arg2: Option<H>,
        arg3: Option<H>,
    },
    As {
        expr: H,
        kind: (),
        convert: (),
    },
    ArrayLength(H),
    RayQueryGetIntersection {
        query: H,
        committed: (),
    },
    Literal(Literal),
    FunctionArgument(u32),
    GlobalVariable(u32),
    LocalVariable(u32),
    CallResult(u32),
    RayQueryProceedResult,
    Constant(Handle<Constant>),
    Override(Handle<Override>),
    ZeroValue(()),
    AtomicResult {
        ty: (),
        comparison: (),
    },
    WorkGroupUniformLoadResult {
        ty: (),
    },
    SubgroupBallotResult,
    SubgroupOperationResult {
        ty: (),
    },
    RayQueryVertexPositions {
        query: H,
        committed: (),
    },
    CooperativeLoad {
        columns: (),
        data: CooperativeData,
    },
    CooperativeMultiplyAdd {
        a: H,
        b: H,
        c: H,
    },
}
impl Expression {
    /// The body of this function is in none of the sources: the rules' list.
    pub const fn needs_pre_emit(&self) -> bool {
        matches!(
            *self,
            Self::Literal(_)
                | Self::Constant(_)
                | Self::Override(_)
                | Self::ZeroValue(_)
                | Self::FunctionArgument(_)
                | Self::GlobalVariable(_)
                | Self::LocalVariable(_)
        )
    }
}

#[derive(Clone, Debug)]
pub enum AtomicFunction {
    Add,
    Subtract,
    And,
    ExclusiveOr,
    InclusiveOr,
    Min,
    Max,
    Exchange { compare: Option<H> },
}
#[derive(Clone, Debug)]
pub enum GatherMode {
    BroadcastFirst,
    Broadcast(H),
    Shuffle(H),
    ShuffleDown(H),
    ShuffleUp(H),
    ShuffleXor(H),
    QuadBroadcast(H),
    QuadSwap(()),
}
#[derive(Clone, Debug)]
pub enum RayQueryFunction {
    Initialize { acceleration_structure: H, descriptor: H },
    Proceed { result: H },
    GenerateIntersection { hit_t: H },
    ConfirmIntersection,
    Terminate,
}
#[derive(Clone, Debug)]
pub enum RayPipelineFunction {
    TraceRay {
        acceleration_structure: H,
        descriptor: H,
        payload: H,
    },
}
#[derive(Clone, Debug)]
pub struct SwitchCase {
    pub body: Block,
}

/// In the order in which adjust_stmt names them.
#[derive(Clone, Debug)]
pub enum Statement {
    Emit(Range<Expression>),
    Block(Block),
    If {
        condition: H,
        accept: Block,
        reject: Block,
    },
    Switch {
        selector: H,
        cases: Vec<SwitchCase>,
    },
    Loop {
        body: Block,
        continuing: Block,
        break_if: Option<H>,
    },
    Return {
        value: Option<H>,
    },
    Store {
        pointer: H,
        value: H,
    },
    ImageStore {
        image: H,
        coordinate: H,
        array_index: Option<H>,
        value: H,
    },
    Atomic {
        pointer: H,
        fun: AtomicFunction,
        value: H,
        result: Option<H>,
    },
    ImageAtomic {
        image: H,
        coordinate: H,
        array_index: Option<H>,
        fun: AtomicFunction,
        value: H,
    },
    WorkGroupUniformLoad {
        pointer: H,
        result: H,
    },
    SubgroupBallot {
        result: H,
        predicate: Option<H>,
    },
    SubgroupCollectiveOperation {
        op: (),
        collective_op: (),
        argument: H,
        result: H,
    },
    SubgroupGather {
        mode: GatherMode,
        argument: H,
        result: H,
    },
    Call {
        function: (),
        arguments: Vec<H>,
        result: Option<H>,
    },
    RayQuery {
        query: H,
        fun: RayQueryFunction,
    },
    CooperativeStore {
        target: H,
        data: CooperativeData,
    },
    RayPipelineFunction(RayPipelineFunction),
    Break,
    Continue,
    Kill,
    ControlBarrier(()),
    MemoryBarrier(()),
}

/// indexmap's behaviour: a second insert of a key keeps the place and takes the new name.
#[derive(Clone, Debug, Default)]
pub struct NamedExpressions(pub Vec<(H, String)>);
impl NamedExpressions {
    pub fn insert(&mut self, h: H, name: String) {
        if let Some(p) = self.0.iter_mut().find(|p| p.0 == h) {
            p.1 = name
        } else {
            self.0.push((h, name))
        }
    }
}
impl IntoIterator for NamedExpressions {
    type Item = (H, String);
    type IntoIter = std::vec::IntoIter<(H, String)>;
    fn into_iter(self) -> Self::IntoIter {
        self.0.into_iter()
    }
}

#[derive(Clone, Debug, Default)]
pub struct Function {
    pub local_variables: Arena<LocalVariable>,
    pub expressions: Arena<Expression>,
    pub named_expressions: NamedExpressions,
    pub body: Block,
}
#[derive(Clone, Debug)]
pub struct MeshStageInfo {
    pub max_vertices: u32,
    pub max_vertices_override: Option<H>,
    pub max_primitives: u32,
    pub max_primitives_override: Option<H>,
}
#[derive(Clone, Debug)]
pub struct EntryPoint {
    pub name: String,
    pub stage: ShaderStage,
    pub workgroup_size: [u32; 3],
    pub workgroup_size_overrides: Option<[Option<H>; 3]>,
    pub function: Function,
    pub mesh_info: Option<MeshStageInfo>,
}
#[derive(Clone, Debug, Default)]
pub struct Module {
    pub types: UniqueArena<Type>,
    pub constants: Arena<Constant>,
    pub overrides: Arena<Override>,
    pub global_variables: Arena<GlobalVariable>,
    pub global_expressions: Arena<Expression>,
    pub functions: Arena<Function>,
    pub entry_points: Vec<EntryPoint>,
}
impl Module {
    pub fn to_ctx(&self) -> crate::proc::GlobalCtx<'_> {
        crate::proc::GlobalCtx {
            constants: &self.constants,
            global_expressions: &self.global_expressions,
        }
    }
}
/// Publishes the tables as they stood when process_overrides refused.
impl Drop for Module {
    fn drop(&mut self) {
        crate::run::module_dropped(self)
    }
}
/// Publishes the overrides as they stood then: process_overrides holds them apart from the module.
impl Drop for Override {
    fn drop(&mut self) {
        crate::run::override_dropped(self.init)
    }
}
