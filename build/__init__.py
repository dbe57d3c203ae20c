"""What proves, links and packs the programs. Nothing of it is installed."""
