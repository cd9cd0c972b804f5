"""A collection: many reels in several copies, each judged, and mended where no copy is undamaged. GNU parallel runs the tasks."""
