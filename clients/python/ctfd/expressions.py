"""C expressions, evaluated with any object that can read memory and look up names (`Target`)."""
from .values.expressions import evaluate
from .values.operands import BadExpression, Code, Located, Number, Operand, Steps, Target, Untold

__all__ = ["BadExpression", "Code", "Located", "Number", "Operand", "Steps", "Target", "Untold",
           "evaluate"]
