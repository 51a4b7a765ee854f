"""An edit that was made for an older document, as one for the newer document; or why it is not carried there.

Two people edit one document. The first edit has made the *far* document of the *near* one, for which the second edit was made. A *bridge*
says how both differ. It is made of the first edit (`bridge_of`), and the second one is carried through it (`carry`), primitive by
primitive. docs/TOOLS.md has an example.

This is tested and not proved. For texts, values, records, alternatives and lists it follows the definitions of `bridge_texts`,
`bridge_lists` and `bridge_core`.
"""

from .bridges import SAME, Bridge, flipped, then
from .bridging import bridge_of
from .carrying import Carried, carry
from .causes import Cause, DoesNotAct, NotCarried

__all__ = ["SAME", "Bridge", "Carried", "Cause", "DoesNotAct", "NotCarried", "bridge_of", "carry", "flipped", "then"]
