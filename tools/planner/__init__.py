"""The planner's tool over the proved library: nets as text, checked, run, drawn and shown."""
