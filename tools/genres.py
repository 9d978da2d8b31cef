"""The names of genres: content_nibble_level_1 and level_2 of the content_descriptor (EN 300 468, 6.2.9, table 28)."""
from __future__ import annotations

from typing import Dict, List, Optional

# By level 1; the names by level 2 follow in order. Level 2 of 0 is the whole group, but for special characteristics.
NAMES: Dict[int, List[str]] = {
    0x1: ["Movie / Drama", "Detective / Thriller", "Adventure / Western / War", "Science fiction / Fantasy / Horror", "Comedy",
          "Soap / Melodrama / Folkloric", "Romance", "Serious / Classical / Religious / Historical movie", "Adult movie / Drama"],
    0x2: ["News / Current affairs", "News / Weather report", "News magazine", "Documentary", "Discussion / Interview / Debate"],
    0x3: ["Show / Game show", "Game show / Quiz / Contest", "Variety show", "Talk show"],
    0x4: ["Sports", "Special events", "Sports magazines", "Football / Soccer", "Tennis / Squash", "Team sports", "Athletics", "Motor sport",
          "Water sport", "Winter sports", "Equestrian", "Martial sports"],
    0x5: ["Children's / Youth programmes", "Pre-school children's programmes", "Entertainment for 6 to 14", "Entertainment for 10 to 16",
          "Informational / Educational / School programmes", "Cartoons / Puppets"],
    0x6: ["Music / Ballet / Dance", "Rock / Pop", "Serious music / Classical music", "Folk / Traditional music", "Jazz", "Musical / Opera",
          "Ballet"],
    0x7: ["Arts / Culture", "Performing arts", "Fine arts", "Religion", "Popular culture / Traditional arts", "Literature", "Film / Cinema",
          "Experimental film / Video", "Broadcasting / Press", "New media", "Arts magazines / Culture magazines", "Fashion"],
    0x8: ["Social / Political issues / Economics", "Magazines / Reports / Documentary", "Economics / Social advisory", "Remarkable people"],
    0x9: ["Education / Science / Factual topics", "Nature / Animals / Environment", "Technology / Natural sciences",
          "Medicine / Physiology / Psychology", "Foreign countries / Expeditions", "Social / Spiritual sciences", "Further education",
          "Languages"],
    0xA: ["Leisure hobbies", "Tourism / Travel", "Handicraft", "Motoring", "Fitness and health", "Cooking", "Advertisement / Shopping",
          "Gardening"],
    0xB: ["Original language", "Black and white", "Unpublished", "Live broadcast", "Plano-stereoscopic", "Local or regional"],
}


def group_name(level_1: int) -> Optional[str]:
    """The name of a group of genres, None where the table has none."""
    if level_1 == 0xB:
        return "Special characteristics"
    return NAMES[level_1][0] if level_1 in NAMES else None


def genre_name(level_1: int, level_2: int) -> str:
    """The name of a genre; that of its group where the table has no name, and the two numbers where it has no group either."""
    names = NAMES.get(level_1, [])
    if level_2 < len(names):
        return names[level_2]
    return f"{group_name(level_1)} ({level_2})" if names else f"genre {level_1}.{level_2}"
