//! Stand-in: values by their whole name, and by a handle.
use crate::name_object::NameSeg;
use crate::value::AmlValue;
use crate::AmlError;
use alloc::collections::BTreeMap;
use alloc::string::{String, ToString};
use alloc::vec::Vec;
use core::fmt;

#[derive(Clone, PartialEq, Eq, PartialOrd, Ord, Debug)]
pub struct AmlName(String);

impl AmlName {
    pub fn root() -> AmlName {
        AmlName("\\".to_string())
    }

    pub fn from_str(name: &str) -> Result<AmlName, AmlError> {
        if name.is_empty() {
            Err(AmlError::EmptyNamesAreInvalid)
        } else {
            Ok(AmlName(name.to_string()))
        }
    }

    pub fn as_string(&self) -> String {
        self.0.clone()
    }

    pub fn resolve(&self, scope: &AmlName) -> Result<AmlName, AmlError> {
        Ok(AmlName(scope.0.clone() + "." + &self.0))
    }
}

impl fmt::Display for AmlName {
    fn fmt(&self, f: &mut fmt::Formatter<'_>) -> fmt::Result {
        f.write_str(&self.0)
    }
}

#[derive(Clone, Copy, PartialEq, Eq, PartialOrd, Ord, Debug)]
pub struct AmlHandle(usize);

#[derive(Clone, Copy, PartialEq, Eq, Debug)]
pub enum LevelType {
    Scope,
    Device,
    Processor,
    PowerResource,
    ThermalZone,
    MethodLocals,
}

#[derive(Clone)]
pub struct NamespaceLevel {
    pub typ: LevelType,
    pub values: BTreeMap<NameSeg, AmlHandle>,
}

#[derive(Clone)]
pub struct Namespace {
    names: BTreeMap<AmlName, AmlHandle>,
    values: Vec<AmlValue>,
    levels: BTreeMap<AmlName, LevelType>,
}

impl Namespace {
    pub fn new() -> Namespace {
        Namespace { names: BTreeMap::new(), values: Vec::new(), levels: BTreeMap::new() }
    }

    pub fn add_level(&mut self, name: AmlName, typ: LevelType) -> Result<(), AmlError> {
        self.levels.insert(name, typ);
        Ok(())
    }

    pub fn remove_level(&mut self, name: AmlName) -> Result<(), AmlError> {
        self.levels.remove(&name);
        Ok(())
    }

    pub fn add_value(&mut self, name: AmlName, value: AmlValue) -> Result<AmlHandle, AmlError> {
        let handle = AmlHandle(self.values.len());
        self.values.push(value);
        self.names.insert(name, handle);
        Ok(handle)
    }

    pub fn get(&self, handle: AmlHandle) -> Result<&AmlValue, AmlError> {
        Ok(&self.values[handle.0])
    }

    pub fn get_mut(&mut self, handle: AmlHandle) -> Result<&mut AmlValue, AmlError> {
        Ok(&mut self.values[handle.0])
    }

    pub fn get_by_path(&self, name: &AmlName) -> Result<&AmlValue, AmlError> {
        match self.names.get(name) {
            Some(handle) => self.get(*handle),
            None => Err(AmlError::ValueDoesNotExist(name.clone())),
        }
    }

    pub fn search(&self, name: &AmlName, _scope: &AmlName) -> Result<(AmlName, AmlHandle), AmlError> {
        match self.names.get(name) {
            Some(handle) => Ok((name.clone(), *handle)),
            None => Err(AmlError::ValueDoesNotExist(name.clone())),
        }
    }

    /// No job walks over the names.
    pub fn traverse<F>(&mut self, _visit: F) -> Result<(), AmlError>
    where
        F: FnMut(&AmlName, &NamespaceLevel) -> Result<bool, AmlError>,
    {
        Ok(())
    }
}
