"""A picture of blocks over many scenarios: of each how often it is accepted, and the distribution of its surplus then."""

from matplotlib.axes import Axes

from ..base import text
from ..journal.journal import Key
from ..pictures import canvas
from ..pictures.matplotlib_settings import pyplot
from .scenarios import Distribution, quantile

BINS = 30
MEDIAN = "median of the surplus"
HEIGHT = 1.7  # inches, of a block


def render_picture(over: Distribution, suffix: str) -> bytes:
    """The bytes of the picture of a distribution."""
    with pyplot.rc_context(canvas.STYLE):
        figure, rows = pyplot.subplots(len(over.keys), 1, figsize=(canvas.BROAD, HEIGHT * len(over.keys) + 0.6), squeeze=False)
        for (axes,), key in zip(rows, over.keys):
            draw_distribution(axes, over, key)
        rows[-1][0].set_xlabel("surplus in the scenarios that accept the block, EUR")
        figure.tight_layout()
        return canvas.render_and_close(figure, suffix)


def draw_distribution(axes: Axes, over: Distribution, key: Key) -> None:
    surpluses = [float(amount * over.hours / 1_000) for amount in over.surpluses[key]]
    whole = len(surpluses) + over.rejected[key]
    share = f"accepted in {len(surpluses):,} of {whole:,} scenarios ({100 * len(surpluses) / whole:.1f} %)"
    axes.set_title(f"{' '.join(key)}, limit {text.shown_price(over.rows[key].price)} EUR/MWh: {share}", loc="left", fontsize=9)
    axes.hist(surpluses, bins=BINS, color=canvas.COLOURS["accepted"], edgecolor=canvas.COLOURS["paper"])
    axes.set_ylabel("scenarios")
    axes.xaxis.set_major_formatter(lambda value, _: f"{value:,.0f}")
    if surpluses:
        middle = f"{MEDIAN}: {quantile(sorted(surpluses), 50):,.2f} EUR"
        axes.axvline(quantile(sorted(surpluses), 50), color=canvas.COLOURS["ink"], linewidth=1, linestyle="--", label=middle)
        axes.legend(loc="lower right", bbox_to_anchor=(1, 1), borderaxespad=0, fontsize=8, frameon=False)  # next to the title
