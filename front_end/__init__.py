"""The text front end: share questions as text, as bytes, and asked; rows that are judged. The commands ask and explain, and docs/draw, are made of it."""
