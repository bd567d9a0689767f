"""The colours of pictures and pages, by their meanings."""

# Of pictures. No two are equal, so that each can be found in the text of a picture.
PICTURES = {
    "ink": "#1b1c1d",
    "soft": "#6d7073",
    "grid": "#d9dbdd",
    "paper": "#fefefe",
    "band": "#ebe6d6",
    "buy": "#a9cbe6",
    "sell": "#2f6690",
    "accepted": "#2f6691",
    "rejected": "#fdfdfd",
    "paradox": "#f3d9a4",
}
# These and the pages' own, by light and dark.
PAGES = {
    "light": {
        **PICTURES,
        "paper": "#ffffff",
        "page": "#f6f5f2",
        "press": "#2f6690",
        "warn": "#8a1c00",
        "alarm": "#fdeae4",
    },
    "dark": {
        "ink": "#e6e4df",
        "soft": "#a09d96",
        "grid": "#3b3d40",
        "paper": "#1e2022",
        "page": "#151617",
        "band": "#3d392c",
        "buy": "#9cc3e0",
        "sell": "#3f7cab",
        "accepted": "#5b9bcb",
        "rejected": "#232527",
        "paradox": "#8a6d2f",
        "press": "#5b9bcb",
        "warn": "#ffb4a0",
        "alarm": "#4a1a10",
    },
}
