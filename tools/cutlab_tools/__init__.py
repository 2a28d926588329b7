"""The tools around cutlab: python3 -m cutlab_tools.NAME, with tools/ on PYTHONPATH."""
