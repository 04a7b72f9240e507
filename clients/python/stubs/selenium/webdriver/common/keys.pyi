class Keys:
    TAB: str
    ENTER: str
    SPACE: str
    ARROW_LEFT: str
    HOME: str
