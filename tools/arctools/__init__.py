"""What the commands of tools/ share: reading logs, traces and reports, and drawing what they tell."""
