"""Indexes of streams: a GeoPackage with where each feature is, what is in it, and its extent."""
