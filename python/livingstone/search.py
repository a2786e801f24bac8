"""Whether formulas over a few variables can be true together, by trying values."""

from __future__ import annotations

from typing import Callable, Dict, List, Optional, Sequence

from .formula import Formula, truth, variables_of

LIMIT = 20_000
MOST_VARIABLES = 200


def satisfiable(formulas: Sequence[Formula], values: Callable[[str], List[str]], limit: int = LIMIT) -> Optional[bool]:
    """Whether some values make all formulas true; None where that isn't known after so many tries, or where there are
    more than 200 variables."""
    if len({name for formula in formulas for name in variables_of(formula)}) > MOST_VARIABLES:
        return None
    return _Search(formulas, values, limit).run({})


class _Search:
    def __init__(self, formulas: Sequence[Formula], values: Callable[[str], List[str]], limit: int) -> None:
        self.formulas = formulas
        self.values = values
        self.left = limit
        self.variables = [variables_of(formula) for formula in formulas]

    def run(self, given: Dict[str, str]) -> Optional[bool]:
        """Gives one variable of the first formula that isn't settled each of its values in turn."""
        self.left -= 1
        if self.left < 0:
            return None
        open_variables: List[str] = []
        for formula, variables in zip(self.formulas, self.variables):
            settled = truth(formula, given)
            if settled is False:
                return False
            if settled is None and not open_variables:
                open_variables = [variable for variable in variables if variable not in given]
        if not open_variables:
            return True
        for value in self.values(open_variables[0]):
            found = self.run({**given, open_variables[0]: value})
            if found is not False:
                return found
        return False
