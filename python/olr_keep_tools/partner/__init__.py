"""A round with a partner, who decodes strings with his own decoder on his own map: what tools/partner does."""
