#!/bin/sh
# Copies the files of naga 30.0.1 that are run, unchanged, from its source tree (NAGA=path) into naga/, which git ignores, and cuts the
# evaluator's outer part and its tracker of kinds out of constant_evaluator.rs. Two stand-ins go beside the copies of arena/, whose
# mod.rs names them. Stops where a file is not the one that this was written for.
set -e
NAGA=$(cd "${NAGA:?give the path of naga 30.0.1, as NAGA=path ./extract.sh}" && pwd)
cd "$(dirname "$0")"
HERE=$(pwd)
(cd "$NAGA" && sha256sum --check --quiet "$HERE/naga.sha256")
rm -rf naga
mkdir -p naga/arena naga/back naga/ir naga/proc
cp "$NAGA/src/back/pipeline_constants.rs" naga/back/
for f in mod handle handlevec range; do cp "$NAGA/src/arena/$f.rs" naga/arena/; done
cp src/arena/handle_set.rs src/arena/unique_arena.rs naga/arena/
cp "$NAGA/src/ir/block.rs" naga/ir/
cp "$NAGA/src/proc/emitter.rs" naga/proc/
lines() { sed -n "$1,$2p" "$NAGA/src/proc/constant_evaluator.rs"; }
{
  echo "// Lines of constant_evaluator.rs, unchanged."
  echo "// 635-650 Behavior"
  lines 635 650
  echo "// 669-837 ConstantEvaluator, restrictions, ExpressionKind, ExpressionKindTracker"
  lines 669 837
  echo "impl<'a> ConstantEvaluator<'a> {"
  echo "// 960-980 for_wgsl_module"
  lines 960 980
  echo "// 999-1048 for_module, for_wgsl_function"
  lines 999 1048
  echo "// 1122-1215 try_eval_and_append, is_global_arena, function_local_data"
  lines 1122 1215
  echo "// 3527-3556 append_expr"
  lines 3527 3556
  echo "}"
} > naga/proc/evaluator_extract.rs
