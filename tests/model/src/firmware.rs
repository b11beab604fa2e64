//! The firmware's two steps.

use crate::Machine;

impl Machine {
    pub(crate) fn take(&mut self) -> Result<u32, u8> {
        self.awake()?;
        let command = self.command.take().ok_or(31)?;
        if command == self.hardware.acpi_enable {
            if !self.sci_en {
                self.enable = 0;
            }
            self.sci_en = true;
        } else if command == self.hardware.acpi_disable {
            self.sci_en = false;
        }
        Ok(command.into())
    }

    pub(crate) fn drop_release(&mut self) -> Result<(), u8> {
        self.awake()?;
        self.release = false;
        Ok(())
    }
}
