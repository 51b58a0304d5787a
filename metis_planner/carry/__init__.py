"""Plans of Metis for what carries them out and what draws them: make, ninja, Graphviz, Mermaid, SVG (see README.md)."""
