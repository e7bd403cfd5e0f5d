"""The plugin of pytest by which SQLAlchemy runs its suite, with the dialect of this package."""
from sqlalchemy.dialects import registry

import cubetree.sqlalchemy

registry.register("cubetree.cubetree", "cubetree.sqlalchemy.dialect", "CubetreeDialect")
from sqlalchemy.testing.plugin.pytestplugin import *  # isort: skip  # noqa: E402,F401,F403
