"""The kinds of the profile, their attributes and values, as docs/FORMATS.md lists them, and their colours in pictures."""

ATTRIBUTES = ("functie", "fysiekVoorkomen", "type", "bagpnd")

_SURFACES = "gesloten_verharding open_verharding half_verhard onverhard"

# Each kind with the values of its attributes. The order is the catalogue's: the first eleven divide the ground.
KINDS: dict[str, dict[str, tuple[str, ...]]] = {
    kind: {attribute: tuple(values.split()) for attribute, values in attributes.items()}
    for kind, attributes in {
        "wegdeel": {
            "functie": "rijbaan_autosnelweg rijbaan_autoweg rijbaan_regionale_weg rijbaan_lokale_weg fietspad voetpad "
                       "voetpad_op_trap ruiterpad parkeervlak spoorbaan baan_voor_vliegverkeer OV-baan overweg inrit woonerf "
                       "voetgangersgebied transitie",
            "fysiekVoorkomen": f"{_SURFACES} transitie",
        },
        "ondersteunend_wegdeel": {
            "functie": "berm verkeerseiland transitie",
            "fysiekVoorkomen": f"{_SURFACES} groenvoorziening transitie",
        },
        "begroeid_terreindeel": {
            "fysiekVoorkomen": "loofbos gemengd_bos naaldbos heide struiken houtwal duin moeras rietland kwelder fruitteelt "
                               "boomteelt bouwland grasland_agrarisch grasland_overig groenvoorziening transitie",
        },
        "onbegroeid_terreindeel": {"fysiekVoorkomen": f"erf {_SURFACES} zand transitie"},
        "waterdeel": {"type": "zee waterloop watervlakte greppel_droge_sloot transitie"},
        "ondersteunend_waterdeel": {"type": "oever_slootkant slik transitie"},
        "pand": {},
        "overig_bouwwerk": {
            "type": "overkapping open_loods opslagtank bezinkbak windturbine lage_trafo bassin niet-bgt transitie",
        },
        "kunstwerkdeel": {"type": "hoogspanningsmast gemaal perron sluis strekdam steiger stuw niet-bgt transitie"},
        "scheiding": {"type": "muur kademuur damwand geluidsscherm walbescherming hek niet-bgt transitie"},
        "ongeclassificeerd_object": {},
        "overbruggingsdeel": {"type": "dek landhoofd pijler sloof pyloon transitie"},
        "tunneldeel": {},
    }.items()
}
DIVIDING = tuple(KINDS)[:11]

# The layer, and the word in a column `kind`, of areas.
AREA = "gebied"

COLOURS = {
    "wegdeel": "#b9bcc2",
    "ondersteunend_wegdeel": "#c9d8a4",
    "begroeid_terreindeel": "#9cc47f",
    "onbegroeid_terreindeel": "#eadfbf",
    "waterdeel": "#8fc1e3",
    "ondersteunend_waterdeel": "#bfdcc9",
    "pand": "#c96f5b",
    "overig_bouwwerk": "#dba393",
    "kunstwerkdeel": "#8d7f91",
    "scheiding": "#7d6448",
    "ongeclassificeerd_object": "#e3e3e3",
    "overbruggingsdeel": "#a99fc6",
    "tunneldeel": "#d6cfe6",
}


def is_ground(kind: str, level: int) -> bool:
    """Whether an object of this kind at this level is one of those that fill the area."""
    return level == 0 and kind in DIVIDING
