"""Names for the numbers of document 01: codes, kinds, reasons, Effects, limits.

Every other module takes its numbers from here, so a reader can check them once.
"""

# Codes of a candidate, in the order of `AliasingEffect`.
CODE_NAMES = [
    "Freeze", "Mutate", "MutateConditionally", "MutateTransitive",
    "MutateTransitiveConditionally", "Capture", "Alias", "MaybeAlias", "Assign",
    "Create", "CreateFrom", "ImmutableCapture", "Apply", "CreateFunction",
    "MutateFrozen", "MutateGlobal", "Impure", "Render",
]
(FREEZE, MUTATE, MUTATE_COND, MUTATE_TRANS, MUTATE_TRANS_COND, CAPTURE, ALIAS,
 MAYBE_ALIAS, ASSIGN, CREATE, CREATE_FROM, IMMUTABLE_CAPTURE, APPLY,
 CREATE_FUNCTION, MUTATE_FROZEN, MUTATE_GLOBAL, IMPURE, RENDER) = range(18)

# The two keys that only the table of cached numbers knows (docs/VECTORS.md, 2).
KEY_ASSIGN_FROZEN, KEY_ASSIGN_COPY = 18, 19

FLOWS = (CAPTURE, ALIAS, MAYBE_ALIAS, ASSIGN, CREATE_FROM, IMMUTABLE_CAPTURE)
MUTATIONS = (MUTATE, MUTATE_COND, MUTATE_TRANS, MUTATE_TRANS_COND)
DIAGNOSED = (MUTATE_FROZEN, MUTATE_GLOBAL, IMPURE)
ONE_PLACE = (MUTATE_COND, MUTATE_TRANS, MUTATE_TRANS_COND, RENDER)

# Kinds of a value.
KIND_NAMES = ["Mutable", "Frozen", "Primitive", "MaybeFrozen", "Global", "Context"]
MUTABLE, FROZEN, PRIMITIVE, MAYBE_FROZEN, GLOBAL, CONTEXT = range(6)

# Reasons of a value; bit n is reason n.
REASON_NAMES = [
    "KnownReturnSignature", "State", "ReducerState", "Context", "Effect",
    "HookCaptured", "HookReturn", "Global", "JsxCaptured", "StoreLocal",
    "ReactiveFunctionArgument", "Other",
]
(R_KNOWN, R_STATE, R_REDUCER, R_CONTEXT, R_EFFECT, R_HOOK_CAPTURED, R_HOOK_RETURN,
 R_GLOBAL, R_JSX, R_STORE, R_ARGUMENT, R_OTHER) = range(12)

# `Effect` of a place, in declared order.
EFFECT_NAMES = ["Unknown", "Freeze", "Read", "Capture", "ConditionallyMutateIterator",
                "ConditionallyMutate", "Mutate", "Store"]
(E_UNKNOWN, E_FREEZE, E_READ, E_CAPTURE, E_ITERATOR, E_CONDITIONALLY, E_MUTATE,
 E_STORE) = range(8)

# State operations (docs/VECTORS.md, 3).
OP_NAMES = ["", "kind", "kind_with_span", "initialize", "define", "assign",
            "append_alias", "is_defined", "values_for", "freeze",
            "mutate_with_span", "infer_phi", "merge", "merge_from"]
(OP_KIND, OP_KIND_SPAN, OP_INITIALIZE, OP_DEFINE, OP_ASSIGN, OP_APPEND,
 OP_IS_DEFINED, OP_VALUES_FOR, OP_FREEZE, OP_MUTATE, OP_PHI, OP_MERGE,
 OP_MERGE_FROM) = range(1, 14)

# Identifier flags and function flags.
REF, HOISTED = 1, 2
KNOWN, TRACKED = 1, 2

NO = 0xFFFFFFFF
NO_SPAN = (NO, NO)

# Limits of document 01.
MAX_IDENTIFIERS, MAX_FUNCTIONS, MAX_CANDIDATES = 512, 64, 64
MAX_CONTEXT, MAX_MUTATED, MAX_CAPTURES = 16, 32, 16
MAX_NEXT, OWN = 512, 512
MAX_INTERNED, MAX_DIAGNOSTICS, MAX_WALK = 2048, 256, 4096
MIN_BYTES, MAX_BYTES, HEADER = 68, 65536, 17
