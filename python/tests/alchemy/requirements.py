"""What the suite of SQLAlchemy may ask of the dialect."""
from __future__ import annotations

from typing import Any

from sqlalchemy.testing import exclusions
from sqlalchemy.testing.requirements import SuiteRequirements


class Requirements(SuiteRequirements):
    """What differs from what the suite asks by itself."""

    @property
    def isolation_level(self) -> Any:
        """There are levels of isolation."""
        return exclusions.open()

    def get_isolation_levels(self, config: Any) -> dict[str, Any]:
        """They are these."""
        return {"default": "READ COMMITTED", "supported": ["READ COMMITTED", "AUTOCOMMIT"]}

    @property
    def parens_in_union_contained_select_w_limit_offset(self) -> Any:
        """The queries of a UNION have no brackets."""
        return exclusions.closed()

    @property
    def parens_in_union_contained_select_wo_limit_offset(self) -> Any:
        """This is so as well."""
        return exclusions.closed()
